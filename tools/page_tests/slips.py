"""Former faults, each by the mouse, the keys and the files that showed it."""

from typing import Callable, List, Tuple

from page_tests.conflicts import moved_region
from page_tests.hands import TWO_TRAINS, Hands
from page_tests.keys import CODES, CTRL
from page_tests.moving import begun
from tests.harness import Suite

NIGHT = {**TWO_TRAINS, "period": "1440\n"}
FOCUS = "document.activeElement === document.body ? '' : document.activeElement.id || document.activeElement.textContent || document.activeElement.tagName"
# Overlapping pairs of texts of a drawing, each of several letters: by their rotated boxes.
ON_EACH_OTHER = """(() => {
    const corners = text => {
        const { x, y, width, height } = text.getBBox(), at = text.getScreenCTM(), top = y + height / 8, bottom = y + height - height / 8;
        return [[x, top], [x + width, top], [x + width, bottom], [x, bottom]].map(([one, other]) => new DOMPoint(one, other).matrixTransform(at));
    };
    const axes = box => [0, 1].map(each => ({ x: box[each + 1].y - box[each].y, y: box[each].x - box[each + 1].x }));
    const reach = (box, axis) => { const all = box.map(({ x, y }) => x * axis.x + y * axis.y); return [Math.min(...all), Math.max(...all)]; };
    const isApart = (one, other) => [...axes(one), ...axes(other)].some(axis => {
        const [first, second] = [reach(one, axis), reach(other, axis)];
        return first[1] <= second[0] || second[1] <= first[0];
    });
    const data = text => text.querySelector('tspan') ? text.textContent : text.firstChild ? text.firstChild.data : '', found = [];
    const texts = [...document.querySelectorAll('SELECTOR')].filter(each => data(each).length > 1);
    const boxes = texts.map(corners);
    texts.forEach((one, place) => boxes.slice(0, place).forEach((box, other) => {
        if (!isApart(box, boxes[place])) found.push(`${data(texts[other])} / ${data(one)}`);
    }));
    return { found, count: texts.length };
})()"""


def let_go_first(suite: Suite, page: Hands) -> None:
    """A double click on an event that is held at its time releases it, and the next one removes its time."""
    page.show(TWO_TRAINS)
    page.ask("Page.step(['fix 2 3'])")
    page.frame()
    for lines in (["fix 2 3", "unfix 2"], ["fix 2 3", "unfix 2", "untime 2"]):
        page.click(*page.grip(2, "now"), count=2)
        page.frame()
        suite.note(lines[-1], {"lines": lines}, {"lines": page.lines()})
    page.show(TWO_TRAINS)
    page.ask("Page.step(['window 2 2 3'])")
    page.click(*page.grip(2, "now"), count=2)
    page.frame()
    suite.note("within a window", {"line": "unfix 2"}, {"line": page.lines()[-1]})
    page.ask("Page.step(['fix 2 7'])")
    page.click(*page.grip(2, "now"), count=2)
    page.frame()
    suite.note("held elsewhere", {"line": "untime 2"}, {"line": page.lines()[-1]})


def drag_left(suite: Suite, page: Hands) -> None:
    """A drag that is cancelled, or that returns, reports nothing of its move afterwards."""
    for name in ("Escape", "back"):
        begun(page)
        x, y = page.middle('[data-way="1"]')
        page.drag([(x, y), (x + 20, y), (x + 40, y)], is_released=False)
        suite.holds(f"{name}: the move is told: {page.said()}", "later" in page.said())
        if name == "Escape":
            page.key("Escape", 27)
        else:
            page.mouse("mouseMoved", x, y)
            page.frame()
        page.mouse("mouseReleased", x, y)
        page.frame()
        suite.note(name, {"said": "Nothing has changed.", "lines": []}, {"said": page.said(), "lines": page.lines()})


def line_begun_anew(suite: Suite, page: Hands) -> None:
    """A second line is typed into empty fields, and another stop is typed at once."""
    page.again()
    page.press("tab-tables")
    for name in ("S1", "S2"):
        page.press("add-line")
        page.click(*page.middle("#line-name"))
        page.type(name)
        page.click(*page.middle("#line-weight"))
        page.type("7")
        came = {"name": page.ask("Page.find('line-name').value"), "weight": page.ask("Page.find('line-weight').value")}
        suite.note(name, {"name": name, "weight": "17"}, came)
        page.press("another-stop")
        page.type("Ashford")
        suite.note("another stop", {"it": "Ashford"}, {"it": page.ask("document.querySelector('#stops tr:last-child input').value")})
        page.press("lining-close")


def digits_of_a_clock(suite: Suite, page: Hands) -> None:
    """Four digits in a field of the day are hours and minutes; elsewhere only those that begin with 0."""
    for typed, line in [("0615", "time 1 375"), ("1815", "time 1 1095"), ("6:15", "time 1 375"), ("375", "time 1 375"), ("2359", "time 1 1439")]:
        page.show(NIGHT)
        page.fill("#time-at", f"{typed}\n")
        suite.note(typed, {"lines": [line]}, {"lines": page.lines()})
    page.show(NIGHT)
    page.fill("#hold-first", "0615")
    page.fill("#hold-length", "0130\n")
    suite.note("a window", {"lines": ["window 1 375 90"]}, {"lines": page.lines()})
    page.fill("#hold-length", "1030\n")
    suite.note("a length", {"line": "window 1 375 1030"}, {"line": page.lines()[-1]})


def keys_stay(suite: Suite, page: Hands) -> None:
    """Whatever a click removes, the focus is somewhere afterwards, and not on the page as a whole."""

    def moved() -> None:
        page.again()
        page.drag([page.minute(1, 20), page.minute(1, 30)])

    def listed(tab: str) -> None:
        moved()
        page.ask("Page.moveTrain(21, 3, false)")
        page.press(f"tab-{tab}")

    def conflicting() -> None:
        page.again()
        page.ask("Page.step(['fix 1 0', 'fix 2 1'])")
        page.press("ask-why")
        page.until("document.querySelector('#reasons .mend')")

    def pressed(*names: str) -> None:
        page.again()
        for name in names:
            page.press(name)

    def undone() -> None:
        moved()
        page.press("undo")

    def naming() -> None:
        page.again()
        page.click(*page.middle("#adding summary"))

    def in_corridor() -> None:
        pressed("tab-corridor")
        page.ask("Page.chooseCorridor(['Ashford', 'Elmore'])")

    acts: List[Tuple[str, Callable[[], None], str]] = [
        ("undo, to nothing", moved, "#undo"),
        ("redo, to the end", undone, "#redo"),
        ("let go", moved, "#let-go"),
        ("take a time away", pressed, "#no-time"),
        ("drop an activity", pressed, "#activities .drop"),
        ("drop an event", pressed, "#drop-event"),
        ("an activity from here", pressed, "#add-from"),
        ("leave that", lambda: pressed("add-from"), "#adding button"),
        ("name it", naming, "#name-it"),
        ("a step", lambda: listed("lines"), "#steps li button"),
        ("what is violated", lambda: listed("violated"), "#view-violated button:not(.main)"),
        ("a mend", conflicting, "#reasons .mend"),
        ("forget a variant", lambda: pressed("keep-A", "tab-compare"), "#forget-A"),
        ("a station out of a corridor", in_corridor, "#corridor-stations li button"),
        ("clear a corridor", in_corridor, "#corridor-stations button:nth-of-type(3)"),
        ("another stop", lambda: pressed("tab-tables", "add-line"), "#another-stop"),
    ]
    for name, begin, selector in acts:
        begin()
        page.frame()
        page.click(*page.middle(selector))
        page.frame()
        page.frame()
        suite.holds(f"{name}: the keys are at {page.ask(FOCUS)!r}", page.ask(FOCUS))
    page.again()


def within_the_period(suite: Suite, page: Hands) -> None:
    """A train moves by half a period at most in the texts, and all of its events in the same direction."""
    page.again()
    page.ask("Page.showRow(1)")
    page.fill("#move-by", "98")
    page.press("move-earlier")
    suite.holds(f"a field: {page.said()}", page.said().startswith("R1 to Inworth 22 minutes later: "))
    page.again()
    x, y = page.middle('[data-way="1"]')
    minute = page.box('[data-way="1"]')[2] / 60
    page.drag([(x, y), (x - 20 * minute, y), (x - 38 * minute, y)], is_released=False)
    suite.holds(f"a drag: {page.said()}", page.said().startswith("R1 to Inworth 22 minutes later: "))
    page.mouse("mouseReleased", x - 38 * minute, y)
    page.frame()
    page.again()
    page.press("keep-A")
    page.ask("Page.moveTrain(1, 29, false)")
    page.ask("Page.moveTrain(Page.view.trains[0].events[4], 3, true)")
    page.press("tab-compare")
    told = page.ask("[...document.querySelectorAll('#view-compare ul li')].map(each => each.textContent).filter(text => text.startsWith('R1 to Inworth'))")
    moves = [text.split("(")[-1].rstrip(")") for text in told]
    suite.note("one train", {"moves": ["+29 minutes"] * 4 + ["+32 minutes"] * 6}, {"moves": moves})
    page.again()


def replies_of_now(suite: Suite, page: Hands) -> None:
    """The reply below the steps disappears with its state."""
    page.again()
    page.press("tab-lines")
    for name in ("a step", "another network"):
        page.fill("#line", "domain 1\n")
        suite.holds(f"{name}: a reply", page.text("#replied").startswith("> domain 1\n"))
        if name == "a step":
            page.ask("Page.step(['fix 1 30'])")
        else:
            page.show(TWO_TRAINS)
        page.frame()
        suite.note(name, {"replied": ""}, {"replied": page.text("#replied")})


def change_at_one_station(suite: Suite, page: Hands) -> None:
    """A change between two stations is refused, with a remedy; another kind is accepted."""
    page.again()
    page.click(*page.middle('[data-row="4"] .name'))
    page.press("add-from")
    page.click(*page.middle('[data-row="9"] .name'))
    page.frame()
    for name, text in [("kind", "change"), ("least", "3"), ("most", "20\n")]:
        page.fill(f"#added-{name}", text)
    wanted = "A change is at one station, and this leads from Norwood to Marden. Choose another event or another kind, as “walk”."
    suite.note("refused", {"said": wanted, "lines": []}, {"said": page.said(), "lines": page.lines()})
    page.fill("#added-kind", "walk\n")
    suite.note("a walk", {"lines": ["add activity 146 4 9 3 20 1"]}, {"lines": page.lines()})
    page.again()


def red_texts_apart(suite: Suite, page: Hands) -> None:
    """No red text of the netgraph or of a diagram overlaps another one; without room there is a mark."""
    for tab, wanted in [("netgraph", 6), ("diagram", 3)]:
        page.again()
        moved_region(page)
        page.press(f"tab-{tab}")
        for line in ("R1", "R4"):
            page.ask(f"Page.choose(Page.view.lines.find(each => each.name === '{line}').trains[0].events[0])")
            page.frame()
            came = page.ask(ON_EACH_OTHER.replace("SELECTOR", f"#{tab} text.broken"))
            suite.note(f"{tab}, {line}", {"they": []}, {"they": came["found"]})
        suite.holds(f"{tab}: {came['count']} texts", came["count"] >= wanted)
    twelve = "".join(f"{number}; 1; 2; 7; 8; 1\n" for number in range(1, 13))
    page.show({**TWO_TRAINS, "activities": twelve})
    page.ask("Page.showTab('diagram')")
    page.frame()
    came = page.ask(ON_EACH_OTHER.replace("SELECTOR", "#diagram text.broken"))
    suite.note("twelve at one place", {"they": []}, {"they": came["found"]})
    suite.holds(f"{came['count']} of them have words", came["count"] > 3)
    page.again()


def found_anew(suite: Suite, page: Hands) -> None:
    """The typed text and its list disappear when another network is opened."""
    page.again()
    page.key("/", 191)
    page.type("Ash")
    page.show(TWO_TRAINS)
    came = {"text": page.ask("document.querySelector('#finder input').value"), "listed": page.ask("!document.querySelector('#finder ul').hidden")}
    suite.note("another network", {"text": "", "listed": False}, came)
    page.key("z", CODES["Tab"], CTRL)
    page.again()


GROUPS = [
    let_go_first, drag_left, line_begun_anew, digits_of_a_clock, keys_stay, within_the_period, replies_of_now,
    change_at_one_station, red_texts_apart, found_anew,
]
