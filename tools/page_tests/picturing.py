"""The picture first: its share of the screen, zoomed by the wheel, keys, fingers and buttons, two periods, and the whole screen."""

from typing import List, Sequence, Tuple

from page_tests import large
from page_tests.browser import Place
from page_tests.corridor import texts_of
from page_tests.fingers import swipe, tap, touch
from page_tests.hands import Hands
from page_tests.keys import CTRL, SHIFT
from tests.harness import Suite, within

ALT = 1
# A train through the night, and one of the morning.
NIGHT = texts_of([
    ("NJ", "C", [("A", 1220), ("B", 1300), ("B", 1310), ("C", 400)]), ("RE", "B", [("A", 380), ("B", 470)]),
], [], 1440)  # fmt: skip
AXIS = "[...document.querySelectorAll('#axis span')].map(each => each.textContent)"
MARKS = "[...document.querySelectorAll('#VIEW text.axis')].map(each => each.textContent)"


def wheel(page: Hands, place: Place, down: float, modifiers: int = 0) -> None:
    """Turns the wheel over a place."""
    page.call("Input.dispatchMouseEvent", type="mouseWheel", x=place[0], y=place[1], deltaX=0, deltaY=down, modifiers=modifiers)
    page.frame()
    page.frame()


def pinch(page: Hands, ways: Sequence[Tuple[Place, Place]]) -> None:
    """Two fingers go down, each along its way, and up."""
    for step in range(7):
        points = [{"x": x + (to[0] - x) * step / 6, "y": y + (to[1] - y) * step / 6, "id": name} for name, ((x, y), to) in enumerate(ways)]
        page.call("Input.dispatchTouchEvent", type="touchMove" if step else "touchStart", touchPoints=points)
        page.frame()
    page.call("Input.dispatchTouchEvent", type="touchEnd", touchPoints=[])
    page.frame()


def over(page: Hands, view: str, part: float = 0.5) -> Place:
    """A place over the minutes of a diagram, at its upper edge."""
    left, top, *_ = page.box(f"#{view} > svg")
    first, width = page.across(view)
    return left + first + part * width, top + 8


def told(page: Hands) -> str:
    """The minutes shown, or the size of the netgraph."""
    return page.text("#zoom-told")


def ring(page: Hands) -> List[float]:
    """The place of the chosen event's ring, as a share of the minutes shown."""
    left, width = page.across("diagram")
    places: List[float] = page.ask("[...document.querySelectorAll('#diagram .mark')].map(each => Number(each.getAttribute('cx')))")
    return [round((place - left) / width, 3) for place in places]


def of_the_screen(suite: Suite, page: Hands) -> None:
    """On a wide screen the picture has more than half, a minute of a strip 8 points, and nothing is wider than the page."""
    page.again()
    for width, height in [(1920, 1080), (1360, 850)]:
        page.resize(width, height)
        for tab in ("diagram", "netgraph"):
            page.ask(f"Page.showTab('{tab}')")
            page.frame()
            _, _, wide, high = page.box("#views")
            suite.holds(f"{tab} at {width}: {wide * high / width / height:.3f} of the screen", wide * high > 0.5 * width * height)
            _, top, drawn, tall = page.box(f"#{tab} > svg")
            room = page.ask(f"[Page.find('{tab}').clientWidth, Page.find('{tab}').clientHeight]")
            suite.holds(f"{tab} fills it: {drawn:.0f} by {tall:.0f} of {room}", drawn > 0.99 * room[0] or tall > 0.99 * room[1])
        strip = page.box('.strip[data-event="1"]')[2] / 60
        suite.holds(f"{strip:.2f} points a minute at {width}", strip >= 8)
        cut = page.ask("['title', 'size'].filter(name => Page.find(name).scrollWidth > Page.find(name).clientWidth + 1)")
        suite.note(f"the name at {width}", {"cut": []}, {"cut": cut})
    for width in (1360, 390):
        page.resize(width, 850)
        page.show(large.texts(10))
        page.ask("Page.choose(Page.view.lines[9].trains[0].events[0]); Page.showTab('diagram')")
        page.frame()
        right, minute = page.ask("[document.querySelector('#line-choice').getBoundingClientRect().right, document.querySelector('#diagram text.axis').getBoundingClientRect().left]")
        suite.holds(f"the choice of a line ends at {right:.0f}, and minutes begin at {minute:.0f}, at {width}", right <= minute)
    page.resize(1440, 900)
    page.ask("Page.showTab('diagram')")


def by_wheel(suite: Suite, page: Hands) -> None:
    """The wheel zooms a diagram about the pointer, the strips with Ctrl or above them, and Shift moves a zoomed one; all shows all."""
    page.again()
    page.ask("Page.choose(1)")
    place = over(page, "diagram", 0.5)
    wheel(page, place, -350)
    shown = told(page)
    suite.note("over the middle", {"told": ":15–:45", "axis": [":20", ":25"]}, {"told": shown, "axis": page.ask(AXIS)[:2] if shown else []})
    suite.note("the chosen event, at 28", {"ring": 0.43}, {"ring": round(ring(page)[0], 2) if ring(page) else 0})
    wheel(page, place, 400, SHIFT)
    suite.holds(f"later: {told(page)}", told(page) > shown)
    wheel(page, place, 2000)
    suite.note("back", {"told": ""}, {"told": told(page)})
    wheel(page, page.minute(5, 30), -350)
    suite.note("over strips it scrolls", {"told": ""}, {"told": told(page)})
    page.ask("Page.find('events').scrollTop = 0")
    wheel(page, page.minute(3, 30), -350, CTRL)
    suite.holds(f"with Ctrl: {told(page)}", told(page) != "")
    page.press("zoom-all")
    wheel(page, page.middle("#axis"), -700)
    suite.holds(f"above them: {told(page)}", told(page) != "" and len(page.ask(AXIS)) > 4)
    x, y = page.grip(1, "now")
    seen = page.box("#axis")
    suite.holds("what is beyond is not seen", not (seen[0] <= page.grip(5, "now")[0] <= seen[0] + seen[2]))
    page.drag([(x, y), (x + page.box('.strip[data-event="1"]')[2] / 60 * 2, y)])
    suite.note("a time is dragged there as told", {"lines": ["time 1 30"]}, {"lines": page.lines()})
    page.press("zoom-all")
    suite.note("all", {"told": "", "axis": 12}, {"told": told(page), "axis": len(page.ask(AXIS))})


def by_keys_and_drags(suite: Suite, page: Hands) -> None:
    """Keys zoom about the chosen event, on strips with Alt; a drag beside all trains moves; a chosen or moved event becomes
    visible."""
    page.again()
    page.ask("Page.choose(9); Page.find('diagram').focus()")
    for _ in range(4):
        page.type("+")
    shown = told(page)
    suite.holds(f"four times +: {shown}", shown != "" and len(ring(page)) == 1)
    page.type("-")
    suite.holds("and −", told(page) != shown)
    before = told(page)
    x, y = over(page, "diagram", 0.5)
    page.drag([(x, y), (x + 100, y), (x + 200, y)])
    page.frame()
    suite.holds(f"a drag moves it: {before} to {told(page)}", "" != told(page) < before and page.lines() == [])
    page.ask("Page.find('diagram').focus()")
    for _ in range(4):
        page.key("ArrowDown", 40)
    page.frame()
    suite.holds("what keys choose is seen", len(ring(page)) == 1)
    for _ in range(4):
        page.key("PageUp", 33)
        page.frame()
    page.frame()
    suite.holds("and where it is moved to", len(ring(page)) == 1)
    page.type("0")
    suite.note("0", {"told": ""}, {"told": told(page)})
    page.ask("document.querySelector('.strip[data-event=\"3\"]').focus()")
    page.key("+", 187, ALT)
    page.frame()
    suite.holds("Alt and + on a strip", told(page) != "")
    page.key("0", 48, ALT)
    page.frame()
    suite.note("Alt and 0", {"told": ""}, {"told": told(page)})


def by_fingers(suite: Suite, page: Hands) -> None:
    """Two fingers zoom a diagram, strips and the netgraph, where one drags as before; they change nothing."""
    page.again()
    page.resize(390, 800)
    page.call("Emulation.setTouchEmulationEnabled", enabled=True, maxTouchPoints=2)
    page.frame()
    x, y = over(page, "diagram", 0.5)
    pinch(page, [((x - 20, y + 40), (x - 60, y + 40)), ((x + 20, y + 40), (x + 60, y + 40))])
    suite.holds(f"a diagram: {told(page)}", told(page) != "")
    shown, (x, y) = told(page), over(page, "diagram", 0.7)
    swipe(page, [(x - 12 * part, y) for part in range(6)])
    page.frame()
    suite.holds(f"one finger moves it: {told(page)}", told(page) > shown)
    page.press("zoom-all")
    x, y = page.minute(3, 30)
    pinch(page, [((x - 20, y), (x - 60, y)), ((x + 20, y), (x + 60, y))])
    suite.holds(f"strips: {told(page)}", told(page) != "")
    suite.note("nothing is changed", {"lines": []}, {"lines": page.lines()})
    page.press("zoom-all")
    page.ask("Page.showTab('netgraph')")
    page.frame()
    x, y = page.middle("#netgraph")
    before = told(page)
    pinch(page, [((x - 20, y), (x - 80, y)), ((x + 20, y), (x + 80, y))])
    suite.holds(f"the netgraph: {before} to {told(page)}", int(told(page).split(" ")[0]) > 200)
    page.press("zoom-all")
    page.ask("Page.showTab('diagram')")
    touch(page, is_on=False)
    page.resize(1440, 900)


def of_the_map(suite: Suite, page: Hands) -> None:
    """The netgraph is zoomed about the pointer and dragged, without clicks; all of a large one becomes visible."""
    page.again()
    page.ask("Page.showTab('netgraph')")
    page.frame()
    station = '#netgraph [data-station="Kelby"] .ring'
    x, y = page.middle(station)
    for _ in range(4):
        wheel(page, (x, y), -200)
    at = page.ask(f"(({{ left, top, width, height }}) => [left + width / 2, top + height / 2])(document.querySelector('{station}').getBoundingClientRect())")
    suite.holds(f"{told(page)}, and the station stays", told(page) == "495 %" and abs(at[0] - x) < 8 and abs(at[1] - y) < 8)
    page.drag([(x, y), (x - 40, y - 30), (x - 80, y - 60)])
    page.frame()
    moved = page.ask(f"document.querySelector('{station}').getBoundingClientRect().left + document.querySelector('{station}').getBoundingClientRect().width / 2") - at[0]
    suite.note("a drag", {"by": -80, "corridor": []}, {"by": round(moved), "corridor": page.ask("Page.corridor.stations")})
    page.show(large.texts(6))
    page.drawn()
    page.press("zoom-all")
    page.frame()
    room = page.ask("[Page.find('netgraph').clientWidth, Page.find('netgraph').clientHeight]")
    _, _, width, height = page.box("#netgraph > svg")
    suite.holds(f"all of it: {width:.0f} by {height:.0f} in {room}", width <= room[0] + 1 and height <= room[1] + 1)
    page.press("tab-diagram")


def two_periods(suite: Suite, page: Hands) -> None:
    """A diagram shows two periods if that is ticked: everything is drawn twice, and a train is moved in either."""
    page.again()
    page.ask("Page.choose(1)")
    page.press("two-periods")
    page.frame()
    suite.note("the chosen event", {"rings": [0.233, 0.733]}, {"rings": ring(page)})
    marks = page.ask(MARKS.replace("VIEW", "diagram"))
    suite.note("marks", {"hours": 3, "axis": 12}, {"hours": marks.count(":00"), "axis": len(page.ask(AXIS))})
    x, y = page.ask(
        """(() => {
        const pieces = [...document.querySelectorAll('#diagram .reach[data-event="1"]')], piece = pieces.pop();
        const { x, y } = piece.getPointAtLength(piece.getTotalLength() / 2).matrixTransform(piece.getScreenCTM());
        return [x, y];
    })()"""
    )
    minute = page.across("diagram")[1] / 120
    page.drag([(x, y), (x + 6 * minute, y), (x + 3 * minute, y)])
    suite.note("a train is moved in the second", {"line": "time 1 31"}, {"line": page.lines()[0]})
    page.press("two-periods")
    page.frame()
    suite.note("one again", {"rings": 1}, {"rings": len(ring(page))})


def whole_screen(suite: Suite, page: Hands) -> None:
    """A box or F gives a view the whole screen, with cost and violations; F or Escape leaves it."""
    page.again()
    for tab in ("diagram", "netgraph"):
        page.ask(f"Page.showTab('{tab}')")
        page.press("large")
        _, _, width, height = page.box("#views")
        came = {"wide": round(width), "high": round(height), "cost": page.is_shown("figure-cost"), "events": page.is_shown("events")}
        suite.note(tab, {"wide": 1440, "high": 900, "cost": True, "events": False}, came)
        page.resize(1360, 850)
        covered = """[...document.querySelectorAll('[role=tab], #zoom :is(button, label), #figure-cost, #figure-violations')].filter(each => {
            const { left, right, top, bottom } = each.getBoundingClientRect();
            return ![left + 2, right - 2].every(x => each.contains(document.elementFromPoint(x, (top + bottom) / 2)));
        }).map(each => each.textContent)"""
        suite.note(f"{tab} at 1360", {"covered": []}, {"covered": page.ask(covered)})
        page.resize(1440, 900)
        page.key("Escape", 27)
        page.frame()
        suite.holds("Escape leaves it", page.is_shown("events") and not page.ask("Page.find('large').checked"))
    page.ask("Page.find('netgraph').focus()")
    page.type("f")
    suite.holds("F", not page.is_shown("events"))
    page.type("f")
    suite.holds("F again", page.is_shown("events"))
    page.ask("Page.showTab('diagram')")


def on_a_phone(suite: Suite, page: Hands) -> None:
    """On a phone heads have a fifth at most, and a tap shows the chosen event with its picture."""
    page.again()
    page.resize(390, 800)
    touch(page)
    for lines in ([], ["time 1 7", "fix 21 3"]):
        page.ask(f"Page.step({lines})" if lines else "")
        page.frame()
        top = page.box("main")[1]
        suite.holds(f"heads of {top:.0f} points after {lines}", top <= 160)
    page.ask("Page.undo()")
    tap(page, page.minute(9, 20))
    page.frame()
    seen = page.ask(
        """['#diagram .mark', '#chosen-name', '#time-at'].map(each => {
        const { left, right, top, bottom } = document.querySelector(each).getBoundingClientRect(), at = document.elementFromPoint((left + right) / 2, (top + bottom) / 2);
        return top >= 0 && bottom <= innerHeight && Boolean(at?.closest('#diagram, #chosen'));
    })"""
    )
    came = {"seen": seen, "name": page.text("#chosen-name"), "lines": page.lines()}
    suite.note("a tap on a strip", {"seen": [True] * 3, "name": page.ask("Page.eventName(9)"), "lines": []}, came)
    page.frame()
    _, top, _, high = page.ask("(({ left, top, width, height }) => [left, top, width, height])(document.querySelector('.row.chosen').getBoundingClientRect())")
    _, over, _, room = page.ask("(({ left, top, width, height }) => [left, top, width, height])(Page.find('events').getBoundingClientRect())")
    suite.holds(f"its row from {top:.0f} to {top + high:.0f} stays in sight, within {over:.0f} to {over + room:.0f}", over <= top and top + high <= over + room + 1)
    tap(page, page.middle("#unfold"))
    page.frame()
    high = page.box("#chosen")[3]
    suite.holds(f"it folds to {high:.0f} points", high < 60)
    left, up = page.ask(
        """(() => {
        const piece = document.querySelector('#diagram .reach[data-event="11"]');
        const { x, y } = piece.getPointAtLength(5).matrixTransform(piece.getScreenCTM());
        return [x, y];
    })()"""
    )
    tap(page, (left, up))
    page.frame()
    suite.note("a tap in the picture", {"chosen": 11, "high": True}, {"chosen": page.ask("Page.chosen"), "high": page.box("#chosen")[3] > 150})
    touch(page, is_on=False)
    page.resize(1440, 900)


@within(120)
def of_a_day(suite: Suite, page: Hands) -> None:
    """A day of 1,440 minutes is zoomed to a quarter of an hour's marks, through the night in two periods, and held to a minute there."""
    page.again()
    page.show(NIGHT)
    suite.note("the whole day", {"axis": "0:00"}, {"axis": page.ask(AXIS)[0]})
    page.ask("Page.choose(1); Page.find('diagram').focus()")
    for _ in range(6):
        page.type("+")
    suite.holds(f"{told(page)}, with {page.ask(AXIS)}", page.ask("(([one, other]) => other && other !== one)(" + AXIS + ")") and "20:" in told(page))
    strip = page.box('.strip[data-event="1"]')[2] / 1440
    suite.holds(f"{strip:.1f} points a minute", strip > 3)
    page.drag([page.minute(1, 1205), page.minute(1, 1215), page.minute(1, 1225)])
    suite.note("held to a minute", {"lines": ["fix 1 1225"]}, {"lines": page.lines()})
    x, y = over(page, "diagram", 0.9)
    for _ in range(2):
        page.drag([(x, y), (x - 300, y), (x - 650, y)])
        page.frame()
    shown, left = told(page), page.across("diagram")[0]
    place = page.ask(
        f"""(() => {{
        const piece = document.querySelector('#diagram .reach[data-event="1"]'), at = [...Array(500).keys()].find(each => piece.getPointAtLength(4 * each).x > {left + 20});
        const {{ x, y }} = piece.getPointAtLength(4 * at).matrixTransform(piece.getScreenCTM());
        return [x, y];
    }})()"""
    )
    page.click(*place)
    page.frame()
    came = {"told": told(page), "rings": ring(page), "chosen": page.ask("Page.chosen")}
    suite.note("a click on a way whose ends are not seen", {"told": shown, "rings": [], "chosen": 1}, came)
    page.press("zoom-all")
    page.press("two-periods")
    page.frame()
    ways = page.ask("[...document.querySelectorAll('#diagram path[stroke-width=\"2.6\"]')].map(each => each.getAttribute('d').match(/[ML]/g).length)")
    suite.holds(f"the night is whole in two periods: {ways}", ways.count(4) >= 2)
    page.press("two-periods")
    wheel(page, over(page, "diagram", 0.8), -700)
    suite.holds(f"by the wheel: {told(page)}", told(page) != "")
    page.press("zoom-all")
    wheel(page, page.minute(3, 700), -700, CTRL)
    suite.holds(f"by the wheel on a strip: {told(page)}", told(page) != "")
    page.press("zoom-all")
    page.call("Emulation.setTouchEmulationEnabled", enabled=True, maxTouchPoints=2)
    page.frame()
    x, y = over(page, "diagram", 0.5)
    pinch(page, [((x - 20, y + 40), (x - 90, y + 40)), ((x + 20, y + 40), (x + 90, y + 40))])
    suite.holds(f"by two fingers: {told(page)}", told(page) != "")
    suite.note("nothing more is changed", {"lines": ["fix 1 1225"]}, {"lines": page.lines()})
    touch(page, is_on=False)
    page.again()


GROUPS = [of_the_screen, by_wheel, by_keys_and_drags, by_fingers, of_the_map, two_periods, whole_screen, on_a_phone, of_a_day]
