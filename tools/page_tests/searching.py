"""Searches in the Worker, and why there is no timetable."""

import json
import re
from typing import Dict

from measuring.network import PERIOD, Numbers, activity_rows, text_of
from page_tests.hands import TWO_TRAINS, Hands
from tests.harness import TOP, Suite

DONE = "!Page.find('optimum').disabled"


def network(events: int, count: int) -> Dict[str, str]:
    """Files of a network whose activities admit 20 to 39 minutes."""
    numbers = Numbers(7)
    times = [numbers.below(PERIOD) for _ in range(events)]
    rows = sorted(activity_rows(numbers, count, times, True, (20, 20)))
    activities = text_of((place + 1, *row) for place, (_, *row) in enumerate(rows))
    return {"activities": activities, "period": f"{PERIOD}\n"}


def long_search() -> Dict[str, str]:
    """Files of a network of 200 events and 600 activities: no search of it ends, however fast the machine is."""
    return network(200, 600)


def soon_found() -> Dict[str, str]:
    """Files of another one, whose search soon has a timetable, and does not end either."""
    return network(200, 300)


def optima(suite: Suite, page: Hands) -> None:
    """The result is the program's, and is adopted by one click and undone by one."""
    page.show({**TWO_TRAINS, "times": ""})
    page.press("optimum")
    page.until(DONE)
    came = {"found": page.text("#found"), "adopt": page.ask("!Page.find('adopt').hidden"), "lines": page.lines()}
    suite.note("an optimum", {"found": "Cost 4: no timetable is better.", "adopt": True, "lines": []}, came)
    page.press("adopt")
    came = {
        "lines": page.lines(),
        "cost": page.text("#figure-cost b"),
        "violated": page.text("#figure-violations b"),
        "adopt": page.ask("Page.find('adopt').hidden"),
    }
    suite.note("adopted", {"lines": ["time 1 0", "time 2 4"], "cost": "4", "violated": "0", "adopt": True}, came)
    page.press("undo")
    suite.note("taken back", {"lines": [], "cost": "–"}, {"lines": page.lines(), "cost": page.text("#figure-cost b")})
    page.ask("Page.step(['span 1 3 3'])")
    page.press("optimum")
    page.until(DONE)
    came = {"found": page.text("#found"), "adopt": page.ask("Page.find('adopt').hidden")}
    suite.note("infeasible", {"found": "✕ No timetable meets everything.", "adopt": True}, came)
    page.ask("Page.find('nodes').value = '0'")
    page.show({**TWO_TRAINS, "times": ""})
    page.press("try")
    page.until(DONE)
    suite.holds(
        "a try without nodes",
        page.text("#found") == "No timetable yet" and re.match(r"after 0 attempts, .* s$", page.text("#clock")),
    )


def stopped(suite: Suite, page: Hands) -> None:
    """A long search leaves the page usable, and is stopped by a click; its result is adopted. A step ends it too."""
    page.show(soon_found())
    page.press("optimum")
    page.until("!Page.find('stop').hidden && /^Cost/.test(Page.find('found').textContent)")
    page.ask("Page.showRow(40)")
    suite.note(
        "an event is chosen meanwhile",
        {"chosen": 40, "stop": True},
        {"chosen": page.ask("Page.chosen"), "stop": page.ask("!Page.find('stop').hidden")},
    )
    page.press("stop")
    came = {
        "said": page.said(),
        "stop": page.ask("Page.find('stop').hidden"),
        "try": page.ask("!Page.find('try').disabled"),
    }
    suite.note("stopped", {"said": "the search was stopped", "stop": True, "try": True}, came)
    found = page.text("#found")
    suite.holds("what was found stays", re.match(r"Cost [0-9,]+, (at most|perhaps)", found) and page.text("#clock").startswith("stopped after"))
    cost = next(re.finditer("[0-9,]*[0-9]", found))[0]
    page.press("adopt")
    suite.note(
        "and is adopted",
        {"cost": cost, "violated": "0"},
        {"cost": page.text("#figure-cost b"), "violated": page.text("#figure-violations b")},
    )
    page.press("optimum")
    page.until("!Page.find('stop').hidden")
    page.ask("Page.step(['weight 1 5'])")
    page.frame()
    came = {"stop": page.ask("Page.find('stop').hidden"), "found": page.text("#found"), "lines": page.lines()[-1]}
    suite.note("a step ends a search of the state before it", {"stop": True, "found": "", "lines": "weight 1 5"}, came)
    page.show({**TWO_TRAINS, "times": ""})
    page.press("optimum")
    page.until(DONE)
    suite.note(
        "and another search follows",
        {"found": "Cost 4: no timetable is better."},
        {"found": page.text("#found")},
    )


def beside_edits(suite: Suite, page: Hands) -> None:
    """The result remains while times are moved, disappears with an edit of the network, and returns after Undo."""
    page.show(TWO_TRAINS)
    page.press("optimum")
    page.until(DONE)
    found = page.text("#found")
    for name, script, wanted in [
        ("a time", "Page.step(['time 1 5', 'time 2 8'])", [found, True]), ("a weight", "Page.step(['weight 1 5'])", ["", False]),
        ("a time after it", "Page.step(['time 1 6'])", ["", False]), ("undone", "Page.undo(); Page.undo()", [found, True]),
        ("a weight in a drag", "Page.preview(['weight 1 7'])", [found, True]), ("left", "Page.refresh()", [found, True]),
    ]:
        page.ask(script)
        suite.note(name, {"told": wanted}, {"told": [page.text("#found"), page.is_shown("adopt")]})
    page.press("optimum")
    page.until(DONE)
    suite.holds("it is told again", page.text("#found").startswith("Cost 4: "))
    page.show(long_search())
    page.press("optimum")
    page.until("!Page.find('stop').hidden")
    page.ask("Page.step(['time 1 5'])")
    suite.holds("a time does not end a search", page.is_shown("stop") and page.said().endswith(" at :05"))
    page.ask("Page.step(['weight 1 5'])")
    suite.holds("a weight does", not page.is_shown("stop") and "the search has ended with it" in page.said())
    page.ask(f"void Page.openTexts({json.dumps({**long_search(), 'lines': 'adopt'})}, 'long')")
    page.until("!Page.find('stop').hidden")
    page.ask("Page.step(['time 1 6'])")
    suite.holds("a time ends an opening", not page.is_shown("stop") and "the opening has ended with it" in page.said())


def reasons(suite: Suite, page: Hands) -> None:
    """The reason why there is no timetable is the Python package's, and one click makes a repair."""
    page.ask("Page.openStory(Page.stories[1])")
    page.press("ask-why")
    page.until(DONE)
    told = page.ask("Page.find('view-why').innerText")
    for line in (
        (TOP / "examples/two-changes/README.md")
        .read_text()
        .split("These 6 cannot be met together:")[1]
        .split("```")[0]
        .splitlines()
    ):
        words = re.split(" {2,}", line.replace("hard)", "not to be changed)").strip())
        if line.startswith("  ") and not line.strip()[0].isdigit():
            suite.holds(f"told: {words}", all(word.strip() in told for word in words))
    for wanted in (
        "These 6 cannot be met together",
        "Once round this circle they take 43 to 58 minutes, and have to take 0 or 60: a whole number of periods.",
        "Without any one of them, the others have a timetable.",
        "2 minutes more",
    ):
        suite.holds(wanted, wanted in told)
    mends = page.ask(
        "[...document.querySelectorAll('#view-why .mend')].map(each => each.closest('tr').children[2].textContent)"
    )
    suite.note(
        "mends",
        {"they": [*["4 to 10 minutes in place of 4 to 8"] * 2, "6 to 10 minutes in place of 6 to 8"]},
        {"they": mends},
    )
    page.ask(
        "[...document.querySelectorAll('#view-why tr')].find(each => /^2 minutes moreturn/.test(each.textContent)).querySelector('.mend').click()"
    )
    page.frame()
    suite.note(
        "a mend",
        {"lines": ["span 42 6 10"], "infeasible": False},
        {"lines": page.lines(), "infeasible": page.ask("Page.isInfeasible(Page.view)")},
    )
    page.press("optimum")
    page.until(DONE)
    suite.note(
        "with it there is an optimum",
        {"found": "Cost 300: no timetable is better."},
        {"found": page.text("#found")},
    )
    page.press("ask-why")
    page.until(DONE)
    suite.holds("and no reason", "A timetable meets everything, so there is no conflict." in page.text("#view-why"))
    page.show({"activities": "1; 1; 2; 3; 5; 0\n", "windows": "1; 0; 2\n2; 8; 1\n", "period": "10"})
    page.ask("Page.step(['fix 2 8'])")
    page.press("ask-why")
    page.until(DONE)
    told = page.ask("Page.find('view-why').innerText")
    wanted = "On this way from one held event to the other they take 3 to 5 minutes, and have to take 7 to 8."
    suite.holds(wanted, wanted in told)
    suite.holds("a window is widened by the least", "2 minutes more" in told and "from :06 to :08" in told)
    page.show({"activities": "1; 1; 2; 5; 5; 0\n2; 2; 1; 7; 7; 0\n", "period": "10"})
    for name, change in [("least minutes stay", "8 minutes more"), ("they are lowered where that is ticked", "2 minutes less")]:
        page.press("ask-why")
        page.until(DONE)
        listed = page.ask("[...document.querySelectorAll('#view-why .mend')].map(each => each.textContent)")
        suite.note(name, {"mends": [change] * 2}, {"mends": listed})
        page.press("can-lower")
    page.click(*page.middle("#view-why .mend"))
    page.frame()
    suite.note("and it is done", {"lines": ["span 1 3 5"]}, {"lines": page.lines()})
    page.ask("Page.showTab('diagram')")


def turned_as_shown(suite: Suite, page: Hands) -> None:
    """A timetable that was found is shifted to agree with the one shown, only if nothing is held."""
    page.again()
    page.press("optimum")
    page.until(DONE)
    page.press("adopt")
    page.ask("Page.step([...Page.view.times].map(([event, time]) => `time ${event} ${(time + 7) % 60}`))")
    page.frame()
    came = {"told": page.text("#compared"), "adopt": page.is_shown("adopt")}
    suite.note("all times later", {"told": "it is the timetable shown", "adopt": False}, came)
    before = page.ask("Object.fromEntries(Page.view.times)")
    page.drag([page.middle('[data-way="21"]'), (page.middle('[data-way="21"]')[0] + 30, page.middle('[data-way="21"]')[1])])
    suite.holds("a train is moved", page.ask("Object.fromEntries(Page.view.times)") != before)
    page.press("adopt")
    suite.note("it alone comes back", {"times": before}, {"times": page.ask("Object.fromEntries(Page.view.times)")})
    suite.note("and all is met", {"violated": "0"}, {"violated": page.text("#figure-violations b")})
    first = page.ask("Page.view.times.get(1)")
    page.ask(f"Page.step(['fix 1 {(first + 1) % 60}'])")
    page.press("optimum")
    page.until(DONE)
    page.press("adopt")
    suite.note("what is held is not turned", {"time": (first + 1) % 60, "violated": "0"}, {"time": page.ask("Page.view.times.get(1)"), "violated": page.text("#figure-violations b")})
    page.again()


GROUPS = [optima, stopped, beside_edits, reasons, turned_as_shown]
