"""A station, a line or an event is found by a typed part of its name."""

import time
from typing import Any, Callable, Dict, Tuple

from page_tests import large
from page_tests.corridor import TRAINS, texts_of
from page_tests.fingers import tap, touch
from page_tests.hands import Hands
from tests.harness import Suite, within

FIELD = "#finder input"
FOUND = "[...document.querySelectorAll('#finder [role=option]')].map(each => each.textContent)"


def found(page: Hands) -> Any:
    """The matches in the list."""
    return page.ask(FOUND)


def found_by_typing(suite: Suite, page: Hands) -> None:
    """Enter chooses the best match, and shows it in its place."""
    page.again()
    for text, first, wanted in [
        ("kelby", "Kelby station, 14 events", {"chosen": 6, "tab": "netgraph", "line": "R1"}),
        ("r5", "R5 line, Gorsley – Marden", {"chosen": 81, "tab": "diagram", "line": "R5"}),
        ("37", "R2 to Cranley leaves Jarrow at :40", {"chosen": 37, "tab": "netgraph", "line": "R2"}),
        ("inworth LEAVES dale", "R1 to Inworth leaves Dale at :49", {"chosen": 3, "tab": "netgraph", "line": "R1"}),
    ]:
        page.ask("Page.showTab('netgraph')")
        page.fill(FIELD, text)
        suite.note(f"{text}: the first", {"it": first}, {"it": (found(page) or [""])[0]})
        page.type("\n")
        came = page.ask("({ chosen: Page.chosen, tab: Page.tab, line: Page.chosenLine })")
        suite.note(f"{text}: Enter", wanted, came)
        suite.note("the keys are on its row", {"event": str(wanted["chosen"])}, {"event": page.ask("document.activeElement.dataset.event")})
        top, height = page.box(f'[data-row="{wanted["chosen"]}"]')[1::2]
        suite.holds(f"{text}: its row is seen", 0 <= top <= 900 - height)


def led_to_a_bar(suite: Suite, page: Hands) -> None:
    """A train that is found has the focus on its bar, and arrows move it; without times its first row has it."""
    page.again()
    page.type("/")
    page.type("r3 to kelby")
    suite.note("the first", {"it": "R3 to Kelby train from Farley at :46"}, {"it": found(page)[0]})
    page.type("\n")
    came = {"bar": page.ask("Number(document.activeElement.dataset.way)"), "chosen": page.ask("Page.chosen")}
    suite.note("its bar", {"bar": 41, "chosen": 41}, came)
    before = page.ask("Page.view.times.get(45)")
    page.key("ArrowRight", 39)
    suite.note("an arrow", {"time": (before + 1) % 60}, {"time": page.ask("Page.view.times.get(45)")})
    page.ask("Page.openTexts({ ...Page.stories[0].texts, times: '' }, 'no times')")
    page.fill(FIELD, "r3 to kelby\n")
    suite.note("without times", {"row": "41"}, {"row": page.ask("document.activeElement.dataset.event")})


def listed(suite: Suite, page: Hands) -> None:
    """One goes through the list by keys, chooses by a mouse and a finger, and closes it by Escape."""
    page.again()
    page.ask("document.activeElement.blur()")
    page.type("/")
    suite.holds("a slash leads to the field", page.ask(f"document.activeElement.matches('{FIELD}')"))
    page.type("norwood")
    marked = "document.querySelector('#finder [aria-selected=true]').textContent"
    before = page.ask(marked)
    page.key("ArrowDown", 40)
    second = page.ask(marked)
    suite.note("arrow down", {"before": found(page)[0], "now": found(page)[1]}, {"before": before, "now": second})
    active = page.ask(f"document.getElementById(document.querySelector('{FIELD}').getAttribute('aria-activedescendant')).textContent")
    suite.note("what a screen reader is told", {"it": second}, {"it": active})
    page.key("Enter", 13)
    page.frame()
    suite.note("Enter", {"it": second}, {"it": page.ask("`${Page.eventName(Page.chosen)} at :${String(Page.view.times.get(Page.chosen)).padStart(2, 0)}`")})
    page.fill(FIELD, "norwood")
    page.key("Escape", 27)
    suite.note("Escape", {"shown": False}, {"shown": page.ask("document.querySelector('#finder ul').getClientRects().length > 0")})

    def tapped(x: float, y: float) -> None:
        tap(page, (x, y))

    acts: Dict[str, Callable[[float, float], None]] = {"a click": page.click, "a tap": tapped}
    for name, act in acts.items():
        page.fill(FIELD, "norwood")
        touch(page, name == "a tap")
        wanted = found(page)[3]
        act(*page.middle("#finder li:nth-child(4)"))
        page.frame()
        suite.note(name, {"it": wanted}, {"it": page.ask("`${Page.eventName(Page.chosen)} at :${String(Page.view.times.get(Page.chosen)).padStart(2, 0)}`")})
    touch(page, is_on=False)
    page.fill(FIELD, "nowhere")
    suite.note("nothing", {"told": "nothing is found", "found": []}, {"told": page.text("#finder ul"), "found": found(page)})
    page.type("\n")
    page.key("Escape", 27)
    suite.note("no line is done by it", {"lines": []}, {"lines": page.lines()})


def found_names(suite: Suite, page: Hands) -> None:
    """Names are found without their accents, and remain plain text; without labels there are only events."""
    page.again()
    page.show(texts_of([("Ü1", "<b>Zürich</b>", [("Genève", 0), ("<b>Zürich</b>", 10)]), *TRAINS], []))
    for text, wanted in [
        ("geneve", ["Genève station, 1 event", "Ü1 to <b>Zürich</b> leaves Genève at :00"]),
        (
            "u1 zurich",
            [
                "Ü1 to <b>Zürich</b> train from Genève at :00",
                "Ü1 to <b>Zürich</b> leaves Genève at :00",
                "Ü1 to <b>Zürich</b> arrives at <b>Zürich</b> at :10",
            ],
        ),
    ]:
        page.fill(FIELD, text)
        came = {"found": found(page), "markup": page.ask("document.querySelectorAll('#finder li b').length")}
        suite.note(text, {"found": wanted, "markup": 0}, came)
    page.show({"activities": "1; 1; 2; 3; 5; 2\n", "period": "60\n"})
    page.fill(FIELD, "2")
    suite.note("without labels", {"found": ["event 2 "]}, {"found": found(page)})
    page.key("Escape", 27)


def met(page: Hands) -> Tuple[Dict[str, str], Dict[str, str]]:
    """The station of the chosen event, and the visible element at its place on the netgraph."""
    station = page.ask("Page.labelOf(Page.chosen).station")
    x, y = page.ask(
        f"""(() => {{
        const {{ left, top, width, height }} = document.querySelector('#netgraph [data-station="{station}"] .ring').getBoundingClientRect();
        return [left + width / 2, top + height / 2];
    }})()"""
    )
    seen = page.ask(f"document.elementFromPoint({x}, {y})?.closest('[data-station]')?.dataset.station")
    return {"station": station}, {"station": seen}


@within(120)
def found_soon(suite: Suite, page: Hands) -> None:
    """Among 2,048 events each letter is answered soon, and a long list says how many more there are."""
    page.again()
    page.show(large.texts())
    page.fill(FIELD, "")
    for letter in "kelby":
        began = time.monotonic()
        page.type(letter)
        suite.holds(f"{letter} in {time.monotonic() - began:.2f} s", time.monotonic() - began < 10)
    told = page.text("#finder li:last-child")
    names = [text for text in found(page) if "station" in text]
    suite.holds(told, told.startswith("and ") and told.endswith(" more: type more"))
    page.key("Escape", 27)
    page.press("tab-netgraph")
    page.drawn()
    suite.note("the netgraph is larger than its view, and begins where the chosen event is", *met(page))
    page.fill(FIELD, names[-1].split(" station")[0] + "\n")
    suite.note("and goes to what is found", *met(page))
    size = page.ask("(text => text.getBoundingClientRect().height)(document.querySelector('#netgraph text.place'))")
    suite.holds(f"where names are {size:.1f} points high", size >= 8)
    page.press("tab-diagram")


GROUPS = [found_by_typing, led_to_a_bar, listed, found_names, found_soon]
