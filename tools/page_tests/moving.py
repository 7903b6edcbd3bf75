"""Trains that are moved as a whole, and from an event on: by a mouse, a finger and keys."""

from typing import Any, Callable, Dict, List, Tuple

from page_tests.fingers import scroll, tap, touch
from page_tests.hands import Hands
from page_tests.keys import CODES, CTRL, SHIFT
from tests.harness import Suite

ALT = 1
# A train from Ashford over Benton to Cranley, and one that leaves Benton after it, at a cost of 5.
TRAINS = {
    "activities": "1; 1; 2; 10; 12; 3\n2; 2; 3; 2; 6; 1\n3; 3; 4; 20; 22; 2\n4; 2; 5; 4; 8; 5\n5; 5; 6; 15; 15; 1\n6; 3; 5; 3; 57; 0\n",
    "times": "1; 0\n2; 10\n3; 12\n4; 32\n5; 15\n6; 30\n",
    "period": "60\n",
    "labels": """event; line; to; station; kind
1; M; Cranley; Ashford; departure
2; M; Cranley; Benton; arrival
3; M; Cranley; Benton; departure
4; M; Cranley; Cranley; arrival
5; B; Dale; Benton; departure
6; B; Dale; Dale; arrival
activity; kind
1; run
2; dwell
3; run
4; change
5; run
6; headway
""",
}
LATER = ["time 1 1", "time 2 11", "time 3 13", "time 4 33"]
EARLIER = ["time 1 57", "time 2 7", "time 3 9", "time 4 29"]
BROKEN = "[...document.querySelectorAll('#diagram text.broken')].map(each => each.firstChild.data)"
FROM_HERE = ["time 3 13", "time 4 33"]


def begun(page: Hands, tab: str = "diagram", **texts: str) -> None:
    """The two trains, and a view beside them."""
    page.show({**TRAINS, **texts})
    page.ask(f"Page.choose(1); Page.showTab('{tab}'); Page.find('from-here').checked = false")
    page.frame()


def bar(page: Hands, event: int = 1) -> Tuple[float, float, float]:
    """The middle of the bar of the train that begins with an event, and the pixels of a minute there."""
    x, y = page.middle(f'[data-way="{event}"]')
    return x, y, page.box(f'[data-way="{event}"]')[2] / 60


def piece(page: Hands, event: int, part: float = 0.5, view: str = "diagram") -> Tuple[float, float, float]:
    """A place on the path of a train in a diagram, after an event, and the pixels of a minute there."""
    page.box(f"#{view} svg")
    x, y = page.ask(
        f"""(() => {{
        const piece = document.querySelector('#{view} .reach[data-event="{event}"]');
        const {{ x, y }} = piece.getPointAtLength({part} * piece.getTotalLength()).matrixTransform(piece.getScreenCTM());
        return [x, y];
    }})()"""
    )
    return x, y, page.across(view)[1] / 60


def figures(page: Hands) -> List[str]:
    """The shown cost and violations, with their changes."""
    return [page.text(f"#figure-{name} {part}") for name in ("cost", "violations") for part in ("b", "small")]


def bars(suite: Suite, page: Hands) -> None:
    """A train is dragged by its bar: each step is shown with its change, and the last one is one step."""
    begun(page)
    state, (x, y, minute) = page.state(), bar(page)
    for minutes, shown, said in [
        (1, ["0", "5 less", "1", "✕ 1 more"], "1 minute later: cost 5 less; 1 violated, 1 more"),
        (-3, ["20", "15 more", "0", "✓ as before"], "3 minutes earlier: cost 15 more; nothing is violated"),
        (2, ["295", "290 more", "2", "✕ 2 more"], "2 minutes later: cost 290 more; 2 violated, 2 more"),
    ]:
        page.drag([(x, y), (x + 9 * minute, y), (x + minutes * minute, y)], is_released=False)
        came = {"shown": figures(page), "said": page.said(), "lines": page.lines()}
        suite.note(f"a step by {minutes}", {"shown": shown, "said": f"M to Cranley {said}", "lines": []}, came)
        sign = "+" if minutes > 0 else "−"
        told = page.text('[data-way="1"] ~ .note').split(" ")[0]
        suite.note("the bar tells by how much", {"told": f"{sign}{abs(minutes)}"}, {"told": told})
        page.key("Escape", 27)
        page.mouse("mouseReleased", x, y)
        page.frame()
        suite.holds("Escape leaves it", page.state() == state and not page.lines())
    page.drag([(x, y), (x + 5 * minute, y), (x, y)])
    suite.note("a drag there and back", {"lines": []}, {"lines": page.lines()})
    for minutes, lines in [(1, LATER), (-3, EARLIER)]:
        page.drag([(x, y), (x + 8 * minute, y), (x + minutes * minute, y)])
        suite.note(f"moved by {minutes}", {"lines": lines}, {"lines": page.lines()})
        page.press("undo")
        suite.holds("one undo takes it back", page.state() == state and page.said().startswith("undone: M to Cranley "))
    page.touch([(x, y), (x + 4 * minute, y), (x + minute, y)])
    suite.note("by a finger", {"lines": LATER}, {"lines": page.lines()})


def ways(suite: Suite, page: Hands) -> None:
    """A train is dragged by its path in the diagram; with Shift, or the box, a run from its departure on, a dwell from its end."""
    begun(page)
    state = page.state()
    for name, event, modifiers, minutes, lines in [
        ("a run", 1, 0, 1, LATER),
        ("a dwell", 2, 0, -3, EARLIER),
        ("a run with Shift", 3, SHIFT, 1, FROM_HERE),
        ("a dwell with Shift", 2, SHIFT, 1, FROM_HERE),
        ("the first run with Shift", 1, SHIFT, 1, LATER),
    ]:
        x, y, minute = piece(page, event)
        page.drag([(x, y), (x + 6 * minute, y), (x + minutes * minute, y)], modifiers=modifiers)
        suite.note(name, {"lines": lines}, {"lines": page.lines()})
        page.press("undo")
        suite.holds(f"{name}, undone", page.state() == state)
    x, y, minute = piece(page, 3)
    page.touch([(x, y), (x + 3 * minute, y + 2), (x + 6 * minute, y), (x + minute, y)])
    suite.note("by a finger", {"lines": LATER}, {"lines": page.lines()})
    page.press("undo")
    page.press("from-here")
    x, y, minute = piece(page, 3)
    page.touch([(x, y), (x + 3 * minute, y + 2), (x + minute, y)])
    suite.note("by a finger from here on", {"lines": FROM_HERE}, {"lines": page.lines()})
    page.press("undo")
    x, y, minute = piece(page, 3)
    page.drag([(x, y), (x + 4 * minute, y)], is_released=False)
    told = page.ask("[...document.querySelectorAll('#diagram text.end')].some(each => each.textContent === '+4')")
    suite.holds("the diagram tells by how much", told)
    page.key("Escape", 27)
    page.mouse("mouseReleased", x, y)
    page.frame()
    suite.holds("Escape leaves it", page.state() == state)


def in_corridor(suite: Suite, page: Hands) -> None:
    """A train is dragged in a corridor too, with all others there: by a mouse, from here on, a finger and keys."""
    begun(page, "corridor")
    page.ask("Page.chooseCorridor(['Ashford', 'Cranley'])")
    page.frame()
    state = page.state()
    for name, event, modifiers, lines in [("a run", 1, 0, LATER), ("with Shift", 3, SHIFT, FROM_HERE)]:
        x, y, minute = piece(page, event, view="corridor")
        page.drag([(x, y), (x + 6 * minute, y), (x + minute, y)], modifiers=modifiers)
        suite.note(name, {"lines": lines}, {"lines": page.lines()})
        page.press("undo")
        suite.holds(f"{name}, undone", page.state() == state)
    x, y, minute = piece(page, 3, 0.7, view="corridor")
    page.drag([(x, y), (x + 4 * minute, y)], is_released=False)
    told = page.ask("[...document.querySelectorAll('#corridor text.end')].some(each => each.textContent === '+4')")
    broken = page.ask(BROKEN.replace("#diagram", "#corridor"))
    suite.note("what is shown meanwhile", {"told": True, "broken": ["1 not 4–8 change"]}, {"told": told, "broken": broken[:1]})
    page.key("Escape", 27)
    page.mouse("mouseReleased", x, y)
    page.frame()
    suite.holds("Escape leaves it", page.state() == state)
    page.touch([(x, y), (x + 3 * minute, y + 2), (x + minute, y)])
    came = {"lines": page.lines(), "chosen": page.ask("Page.chosen")}
    suite.note("by a finger", {"lines": LATER, "chosen": 4}, came)
    page.press("undo")
    page.ask("Page.find('corridor').focus()")
    page.key("ArrowRight", CODES["ArrowRight"])
    page.frame()
    suite.note("by keys", {"lines": LATER}, {"lines": page.lines()})
    page.ask("Page.chooseCorridor([]); Page.showTab('diagram')")


def by_taps(suite: Suite, page: Hands) -> None:
    """A finger on a train that goes up or down scrolls, a tap chooses, and beside all trains it scrolls across."""
    begun(page)
    page.resize(390, 800)
    touch(page)
    tap(page, piece(page, 1, 0.9)[:2])
    suite.note("a tap on a way", {"chosen": 2, "lines": []}, {"chosen": page.ask("Page.chosen"), "lines": page.lines()})
    page.ask("document.querySelector('[data-way=\"5\"]').scrollIntoView({ block: 'center' })")
    tap(page, bar(page, 5)[:2])
    page.frame()
    suite.note("a tap on a bar", {"line": "B", "lines": []}, {"line": page.ask("Page.labelOf(Page.chosen).line"), "lines": page.lines()})
    page.ask("Page.choose(1)")
    places: Dict[str, Callable[[], Any]] = {"a bar": lambda: bar(page), "a way": lambda: piece(page, 1)}
    for name, place in places.items():
        x, y = place()[:2]
        before = page.ask("Page.find('events').scrollTop")
        scroll(page, (x, y), 200 if y < 500 else -200)
        moved = abs(page.ask("Page.find('events').scrollTop") - before)
        came = {"lines": page.lines(), "chosen": page.ask("Page.chosen")}
        suite.note(f"{name}: scrolled", {"lines": [], "chosen": 1}, came)
        # The whole picture is on the screen.
        suite.holds(f"{name} scrolls by {moved}", moved > 50 or name == "a way")
    touch(page, is_on=False)
    page.resize(1440, 900)


def diamonds(suite: Suite, page: Hands) -> None:
    """The diamond of an event moves its train with Ctrl, and with Shift from here on; alone it moves itself."""
    for modifiers, lines in [(0, ["time 3 13"]), (CTRL, LATER), (SHIFT, FROM_HERE), (CTRL + SHIFT, FROM_HERE)]:
        begun(page)
        x, y = page.grip(3, "now")
        page.drag([(x, y), (x + 30, y), (page.minute(3, 13)[0], y)], modifiers=modifiers)
        suite.note(f"a diamond with {modifiers}", {"lines": lines}, {"lines": page.lines()})


def by_keys(suite: Suite, page: Hands) -> None:
    """Keys move a train on its bar, in a row and in each view, each time by one step."""
    for name, focus, key, modifiers, lines in [
        ("a bar", "[data-way='1']", "ArrowRight", 0, LATER),
        ("a bar from here on", "[data-way='1']", "ArrowRight", SHIFT, FROM_HERE),
        ("a bar by ten", "[data-way='1']", "PageDown", 0, ["time 1 50", "time 2 0", "time 3 2", "time 4 22"]),
        ("a strip", ".strip[data-event='3']", "ArrowRight", CTRL, LATER),
        ("a strip with Alt", ".strip[data-event='3']", "ArrowRight", ALT, LATER),
        ("a strip from here on", ".strip[data-event='3']", "ArrowRight", CTRL + SHIFT, FROM_HERE),
        ("a diamond", ".strip[data-event='3'] .now", "ArrowRight", CTRL, LATER),
        ("a diamond from here on", ".strip[data-event='3'] .now", "ArrowRight", SHIFT, FROM_HERE),
        ("a diamond alone", ".strip[data-event='3'] .now", "ArrowRight", 0, ["time 3 13"]),
        *(
            (f"the {tab}", f"#{tab}", key, modifiers, lines)
            for tab in ("diagram", "netgraph", "corridor", "tables")
            for key, modifiers, lines in [("ArrowRight", 0, LATER), ("ArrowRight", SHIFT, FROM_HERE)]
        ),
    ]:
        begun(page, name.split(" ")[-1] if focus[0] == "#" else "diagram")
        page.ask(f'Page.choose(3); document.querySelector("{focus}").focus()')
        page.key(key, CODES[key], modifiers)
        page.frame()
        suite.note(f"{name}, {key}", {"lines": lines}, {"lines": page.lines()})
        still = page.ask(f'document.activeElement === document.querySelector("{focus}")')
        page.key("z", 90, CTRL)
        page.frame()
        suite.note("the keys stay there, and one undo is enough", {"it": (True, [])}, {"it": (still, page.lines())})


def by_fields(suite: Suite, page: Hands) -> None:
    """The chosen event's train is moved by typed minutes, from here on with the box."""
    begun(page)
    page.click(*page.minute(3, 40))
    page.fill("#move-by", "3")
    page.press("move-earlier")
    suite.note("earlier", {"lines": EARLIER}, {"lines": page.lines()})
    page.press("undo")
    page.fill("#move-by", "1\n")
    suite.note("by Enter", {"lines": LATER}, {"lines": page.lines()})
    page.press("undo")
    page.press("from-here")
    page.press("move-later")
    suite.note("later, from here on", {"lines": FROM_HERE}, {"lines": page.lines()})
    said = "M to Cranley from Benton on 1 minute later: cost 1 more; 1 violated, 1 more"
    suite.note("and what it changes", {"said": said}, {"said": page.said()})
    page.press("tab-lines")
    listed = "M to Cranley from Benton on 1 minute later — time 3 13 and 1 more commands"
    suite.note("the step is listed", {"listed": listed}, {"listed": page.text("#steps")})


def held(suite: Suite, page: Hands) -> None:
    """An event that would leave its window or fixed time moves on, and its row, the bar and the diagram show that."""
    for line, told in [("fix 3 12", "not at :12"), ("window 3 10 3", "not from :10 to :12")]:
        begun(page)
        page.ask(f"Page.step(['{line}'])")
        page.frame()
        x, y, minute = bar(page)
        page.drag([(x, y), (x + 4 * minute, y), (x + minute, y)], is_released=False)
        came = {
            "row": page.row(3, "note"),
            "bar": page.text('[data-way="1"] ~ .note'),
            "diagram": page.ask(BROKEN),
            "ring": page.ask("document.querySelectorAll('#diagram .outside').length"),
            "said": page.said(),
        }
        said = f"M to Cranley 1 minute later: cost 5 less; 2 violated, 2 more; ✕ M to Cranley leaves Benton: {told}"
        wanted = {"row": f"✕ {told}", "bar": f"+1 ✕ {told}", "diagram": ["2 not 3–57 headway", told], "ring": 1}
        suite.note(line, {**wanted, "said": said}, came)
        page.mouse("mouseReleased", x + minute, y)
        page.frame()
        suite.note("it is done all the same", {"lines": [line, *LATER]}, {"lines": page.lines()})


def lacking(suite: Suite, page: Hands) -> None:
    """Events without a time are skipped, and if nothing can be moved the page says so."""
    begun(page, times="1; 0\n2; 10\n3; 12\n")
    page.ask("Page.find('diagram').focus()")
    page.key("ArrowRight", CODES["ArrowRight"])
    page.frame()
    said = "M to Cranley 1 minute later: cost as before; nothing is violated; 3 events have no time"
    suite.note("some times", {"lines": LATER[:3], "said": said}, {"lines": page.lines(), "said": page.said()})
    begun(page, times="")
    page.ask("Page.find('diagram').focus()")
    page.key("ArrowRight", CODES["ArrowRight"])
    page.frame()
    said = "M to Cranley 1 minute later: no time changes"
    suite.note("no times", {"lines": [], "said": said}, {"lines": page.lines(), "said": page.said()})
    begun(page, labels="")
    came = {"bars": page.ask("document.querySelectorAll('.way').length"), "form": page.is_shown("move")}
    suite.note("no labels", {"bars": 0, "form": False}, came)
    page.ask("document.querySelector('.strip').focus()")
    page.key("ArrowRight", CODES["ArrowRight"], CTRL)
    page.frame()
    said = "The labels name no train of this event."
    suite.note("a key there", {"lines": [], "said": said}, {"lines": page.lines(), "said": page.said()})


GROUPS = [bars, ways, in_corridor, by_taps, diamonds, by_keys, by_fields, held, lacking]
