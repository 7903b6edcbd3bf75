"""Drags on strips and tracks, undone and redone."""

from page_tests.hands import TWO_TRAINS, Hands
from tests.harness import Suite


def holding(suite: Suite, page: Hands) -> None:
    """A drag on a strip holds an event, and each of its steps is shown; a click changes nothing."""
    page.show(TWO_TRAINS)
    before = page.shown()
    page.click(*page.minute(2, 7))
    page.frame()
    suite.note("a click", {"lines": [], "chosen": 2}, {"lines": page.lines(), "chosen": page.ask("Page.chosen")})
    x, y = page.minute(2, 7)
    page.drag([(x, y), (x + 2, y), (x - 2, y)])
    suite.note("a click by a hand that trembles", {"lines": []}, {"lines": page.lines()})
    page.drag([page.minute(1, 2), page.minute(1, 4), page.minute(1, 5)], is_released=False)
    came = {"lines": page.lines(), "note": page.row(1, "note"), "others": page.ask("[...Page.view.domains.get(2)]")}
    suite.note(
        "a step of a drag",
        {"lines": [], "note": "✕ not at :05", "others": [9, 0]},
        {**came, "others": sorted(came["others"], reverse=True)},
    )
    page.mouse("mouseMoved", *page.minute(1, 0))
    page.frame()
    page.mouse("mouseReleased", *page.minute(1, 0))
    page.frame()
    suite.note("a drag", {"lines": ["fix 1 0"], "note": "at :00"}, {"lines": page.lines(), "note": page.row(1, "note")})
    domains = page.ask("Page.ask(['domains'])[0]")
    drawn = page.ask("document.querySelector('[data-row=\"2\"] .possible').getAttribute('d')")
    suite.note(
        "domains",
        {"reply": ["domains 2", "1: 0", "2: 4 5"], "drawn": "M4 0H6V1H4Z"},
        {"reply": domains, "drawn": drawn},
    )
    page.drag([page.minute(1, 2), page.minute(1, 4)], is_released=False)
    page.key("Escape", 27)
    page.mouse("mouseReleased", *page.minute(1, 4))
    page.frame()
    suite.note(
        "a drag that Escape ends",
        {"lines": ["fix 1 0"], "note": "at :00"},
        {"lines": page.lines(), "note": page.row(1, "note")},
    )
    page.click(*page.minute(1, 7), count=2)
    page.frame()
    suite.note(
        "a double click",
        {"lines": ["fix 1 0", "unfix 1"], "note": ""},
        {"lines": page.lines(), "note": page.row(1, "note")},
    )
    page.click(*page.minute(2, 7))
    suite.holds("and all is as before", page.shown() == before)


def windows(suite: Suite, page: Hands) -> None:
    """The ends of a window are dragged, and the whole of it, also over the end of the period."""
    page.show(TWO_TRAINS)
    page.ask("Page.step(['window 1 2 3'])")
    page.frame()
    for name, start, places, line in [
        ("the last minute", page.grip(1, "last"), [6], "window 1 2 5"),
        ("the first minute", page.grip(1, "first"), [1], "window 1 1 6"),
    ]:
        edge = [
            (
                page.minute(1, minute)[0]
                + (page.minute(1, 1)[0] - page.minute(1, 0)[0]) * (0.5 if "last" in name else -0.5),
                start[1],
            )
            for minute in places
        ]
        page.drag([start, *edge])
        suite.note(f"a drag of {name}", {"line": line}, {"line": page.lines()[-1]})
    page.drag([page.minute(1, 3), page.minute(1, 5), page.minute(1, 7)])
    suite.note("a drag of a whole window", {"line": "window 1 5 6"}, {"line": page.lines()[-1]})
    frame = page.ask("document.querySelector('[data-row=\"1\"] .held').getAttribute('d')")
    suite.note(
        "a window over the end of the period",
        {"frame": "M10 0H5V1H10M0 0H1V1H0", "note": "from :05 to :00"},
        {"frame": frame, "note": page.row(1, "note")},
    )


def times(suite: Suite, page: Hands) -> None:
    """The time of an event is dragged: tension, cost and violations follow at each step."""
    page.show(TWO_TRAINS)
    page.drag([page.grip(2, "now"), page.minute(2, 4)], is_released=False)
    came = {
        "cost": page.text("#figure-cost b"),
        "violated": page.text("#figure-violations b"),
        "time": page.row(2, "time"),
        "lines": page.lines(),
    }
    suite.note("a step", {"cost": "4", "violated": "0", "time": ":04", "lines": []}, came)
    page.mouse("mouseReleased", *page.minute(2, 4))
    page.frame()
    suite.note(
        "a time",
        {"lines": ["time 2 4"], "times": [[1, 0], [2, 4]]},
        {"lines": page.lines(), "times": page.ask("[...Page.view.times]")},
    )
    page.click(*page.grip(2, "now"), count=2)
    page.frame()
    came = {"lines": page.lines()[-1], "time": page.row(2, "time"), "cost": page.text("#figure-cost small")}
    suite.note("a time taken away", {"lines": "untime 2", "time": "–", "cost": "1 event has no time"}, came)
    page.press("undo")
    suite.note("and given back", {"times": [[1, 0], [2, 4]]}, {"times": page.ask("[...Page.view.times]")})


def spans(suite: Suite, page: Hands) -> None:
    """The ends of a span are dragged, and all of it; an end stops at the other one."""
    page.show(TWO_TRAINS)
    page.click(*page.minute(1, 8))
    page.frame()
    handle = '[data-activity="1"] .grip'
    shift = page.unit(1, 1)[0] - page.unit(1, 0)[0]
    for end, minutes, line in [
        ("upper", 3, "span 1 3 8"),
        ("lower", 2, "span 1 5 8"),
        ("lower", 6, "span 1 8 8"),
        ("upper", -4, None),
    ]:
        x, y = page.middle(f"{handle}.{end}")
        before = page.lines()
        page.drag([(x, y), (x + minutes * shift, y)])
        suite.note(
            f"the {end} end by {minutes}",
            {"lines": [*before, line] if line else before},
            {"lines": page.lines() if line else page.lines()[: len(before)]},
        )
    page.ask("Page.step(['span 1 3 5'])")
    page.frame()
    x, y = page.middle('[data-activity="1"] .bar')
    page.drag([(x, y), (x + shift, y), (x + 2 * shift, y)])
    suite.note("the whole span", {"line": "span 1 5 7"}, {"line": page.lines()[-1]})
    told = page.text('[data-activity="1"] .told')
    suite.note("what is not met", {"told": "✕ not met: takes 3 minutes, counted as 13, slack 8, costs 16"}, {"told": told})


def undoing(suite: Suite, page: Hands) -> None:
    """Each step is undone and redone, and the state is then the same; a step after an undo discards the undone ones."""
    page.show(TWO_TRAINS)
    steps = [
        "fix 1 0",
        "window 2 3 4",
        "span 1 3 4",
        "time 2 4",
        "weight 1 7",
        "drop activity 2",
        "unfix 1",
        "add event 9",
        "untime 1",
        "drop event 9",
    ]
    states = [page.state()]
    for line in steps:
        page.ask(f"Page.step(['{line}'])")
        states.append(page.state())
    for place in range(len(steps) - 1, -1, -1):
        page.press("undo")
        suite.holds(f"undone: {steps[place]}", page.state() == states[place])
    suite.holds("nothing is left to undo", page.ask("Page.find('undo').disabled"))
    for place in range(len(steps)):
        page.press("redo")
        suite.holds(f"done again: {steps[place]}", page.state() == states[place + 1])
    suite.holds("nothing is left to do again", page.ask("Page.find('redo').disabled"))
    page.press("undo")
    page.ask("Page.step(['weight 1 8'])")
    suite.note(
        "a step after an undo",
        {"lines": [*steps[:-1], "weight 1 8"], "redo": True},
        {"lines": page.lines(), "redo": page.ask("Page.find('redo').disabled")},
    )
    # After hundreds of steps the session is at the state of each of them, also with windows, times and isolated events.
    page.ask("for (const line of ['time 1 0', 'time 9 3', 'window 9 2 3']) Page.step([line])")
    page.ask("for (let count = 0; count < 350; count += 1) Page.step([`fix 2 ${count % 10}`])")
    state = page.state()
    page.ask("for (let count = 0; count < 340; count += 1) Page.undo()")
    page.ask("for (let count = 0; count < 340; count += 1) Page.redo()")
    came = {"state": page.state() == state, "lines": len(page.lines()), "cost": page.ask("Page.view.cost > 0")}
    came["event 9"] = page.ask("[Page.view.network.windows.get(9), Page.view.times.get(9)]")
    wanted = {"state": True, "lines": 363, "cost": True, "event 9": [{"first": 2, "length": 3}, 3]}
    suite.note("hundreds of steps", wanted, came)


def refusals(suite: Suite, page: Hands) -> None:
    """A refused line changes nothing, and its reply is shown."""
    page.show(TWO_TRAINS)
    page.ask("Page.showTab('lines')")
    state = page.state()
    for line, told in [
        ("span 1 9 3", "run of M from Ashford to Benton: the least minutes are more than the most"),
        ("fix 1 10", "M to Benton leaves Ashford: minute 10 is beyond the period"),
        ("fix 7 1", "no event 7"),
        ("add event", "wrong number of words"),
    ]:
        page.ask(f"Page.find('line').value = '{line}'")
        page.ask("Page.find('typed').requestSubmit()")
        page.frame()
        came = {"said": page.said(), "lines": page.lines(), "state": page.state() == state}
        suite.note(line, {"said": told, "lines": [], "state": True}, came)
    page.ask("Page.find('line').value = 'weight 1 6'; Page.find('typed').requestSubmit()")
    suite.note(
        "a line that is done",
        {"lines": ["weight 1 6"], "listed": "run of M from Ashford to Benton: weight 6, was 2 — weight 1 6"},
        {"lines": page.lines(), "listed": page.text("#steps")},
    )
    page.ask("Page.find('line').value = 'domain 1'; Page.find('typed').requestSubmit()")
    suite.note(
        "a question",
        {"reply": "> domain 1\n1: 0 1 2 3 4 5 6 7 8 9", "lines": 1},
        {"reply": page.text("#replied"), "lines": len(page.lines())},
    )
    page.ask("Page.showTab('diagram')")


GROUPS = [holding, windows, times, spans, undoing, refusals]
