"""Violations are visible at their places, and everything drawn is chosen by a click and by keys."""

from typing import Any, Callable, Dict, Set

from page_tests.hands import Hands
from page_tests.keys import CODES
from page_tests.moving import TRAINS, begun, piece
from page_tests.whole import LOOK
from tests.harness import Suite

# Of the two trains a run, a dwell, a change and a headway are violated, and an event that is held.
LINES = ["span 1 13 14", "span 2 4 6", "span 4 6 8", "span 6 4 56", "fix 4 30"]
RED = "rgb(179, 19, 31)"
RUN, DWELL, CHANGE, HEADWAY = "10 not 13–14", "2 not 4–6", "5 not 6–8", "3 not 4–56"
LISTED = [
    "✕ run of M from Ashford to Benton — takes 10 minutes, may take 13 to 14: 3 too few",
    "✕ dwell of M to Cranley at Benton — takes 2 minutes, may take 4 to 6: 2 too few",
    "✕ change at Benton from M to Cranley into B to Dale — takes 5 minutes, may take 6 to 8: 1 too few",
    "✕ headway at Benton between M to Cranley and B to Dale — takes 3 minutes, may take 4 to 56: 1 too few",
    "✕ M to Cranley arrives at Cranley — is at :32, held at :30",
]
ITEMS = "[...document.querySelectorAll('#view-violated .violated')].map(each => each.textContent)"
RUN_BROKEN = "document.querySelector('#corridor path.broken[data-activity=\"1\"]')"
TEXTS = "[...document.querySelectorAll('SELECTOR')].map(each => each.firstChild ? each.firstChild.data : '').filter(Boolean)"


def violated(page: Hands, tab: str = "diagram") -> None:
    """The two trains with their violations, and a view beside them."""
    begun(page, tab)
    page.ask(f"Page.step({LINES})")
    page.frame()


def texts(page: Hands, selector: str) -> Any:
    return page.ask(TEXTS.replace("SELECTOR", selector))


def colors(page: Hands, selector: str, name: str) -> Set[str]:
    return set(page.ask(f"[...document.querySelectorAll('{selector}')].map(each => getComputedStyle(each).{name})"))


def in_rows(suite: Suite, page: Hands) -> None:
    """A row shows the violations that end there, and for other trains also those that begin there; its time and diamond are red."""
    violated(page)
    for event, told, note in [
        (1, [], ""),
        (2, [f"✕ {RUN} run +1"], ""),
        (3, [f"✕ {DWELL} dwell +1"], ""),
        (4, [], "✕ not at :30"),
        (5, [f"✕ {CHANGE} change +1"], ""),
        (6, [], ""),
    ]:
        came = {"told": texts(page, f'[data-row="{event}"] .conflict'), "note": page.row(event, "note")}
        suite.note(f"the row of {event}", {"told": told, "note": note}, came)
        wanted = set() if event == 6 else {RED}
        red = colors(page, f'[data-row="{event}"] .time', "color") & {RED}
        suite.note(f"its time {event}", {"red": wanted}, {"red": red})
    title = page.ask("document.querySelector('[data-row=\"3\"] .conflict').title")
    suite.note("all of it", {"title": 2}, {"title": len(title.split("\n"))})
    page.again()
    page.show({**TRAINS, "activities": TRAINS["activities"].replace("1; 1; 2; 10; 12", "1; 1; 2; 13; 14")})
    rows = [texts(page, f'[data-row="{event}"] .conflict') for event in (1, 2)]
    suite.note("as it is opened", {"rows": [[], [f"✕ {RUN} run"]]}, {"rows": rows})
    page.ask("Page.showRow(2)")
    for _ in range(2):
        page.key("Tab", CODES["Tab"])
    suite.note("by Tab from its row", {"at": "conflict"}, {"at": page.ask("document.activeElement.className")})
    violated(page)
    suite.note("the bar", {"told": "✕ not at :30"}, {"told": page.text('[data-way="1"] ~ .note')})


def in_views(suite: Suite, page: Hands) -> None:
    """The diagram, the netgraph, the tables and the list have the actual and required minutes, in red."""
    violated(page)
    came = sorted(texts(page, "#diagram text.broken"))
    wanted = sorted([RUN, f"{DWELL} dwell", f"{CHANGE} change", f"{HEADWAY} headway", "not at :30"])
    suite.note("the diagram", {"told": wanted}, {"told": came})
    ways = page.ask("[...document.querySelectorAll('#diagram path.broken')].map(each => Number(each.dataset.activity))")
    suite.note("its ways", {"they": [1, 2, 4, 6]}, {"they": ways})
    suite.note("their colors", {"they": {RED}}, {"they": colors(page, "#diagram path.broken", "stroke")})
    suite.note("its texts", {"they": {RED}}, {"they": colors(page, "#diagram text.broken", "fill")})
    rings = page.ask("['#diagram > svg > .mark', '#diagram svg svg .mark'].map(each => document.querySelectorAll(each).length)")
    suite.note("the chosen event's ring is not cut at the edge", {"rings": [1, 0]}, {"rings": rings})
    # A headway the other way round is drawn between its trains, and not over the rest of the period.
    for time, had, minutes in [(10, 58, 2), (12, 0, 0)]:
        page.ask(f"Page.step(['time 5 {time}', 'time 6 {time + 15}'])")
        way = page.ask("document.querySelector('#diagram path[data-activity=\"6\"]').getBBox().width") * 60 / page.across("diagram")[1]
        drawn = {"told": texts(page, '#diagram text[data-activity="6"]'), "minutes": round(way, 1)}
        suite.note(f"a headway of {had}", {"told": [f"{had} not 4–56 headway"], "minutes": minutes}, drawn)
        page.press("undo")
    page.ask("Page.showTab('corridor'); Page.chooseCorridor(['Ashford', 'Cranley'])")
    page.frame()
    suite.note("the corridor", {"told": wanted}, {"told": sorted(texts(page, "#corridor text.broken"))})
    suite.note("its ways", {"they": {RED}}, {"they": colors(page, "#corridor path.broken", "stroke")})
    above = page.ask("[...document.querySelectorAll('#corridor path.broken')].every(each => !each.matches(':has(~ .train)'))")
    hit = page.ask(f"document.elementFromPoint(...{SPOT.format(RUN_BROKEN)}).className.baseVal")
    suite.note("they are seen above trains, of which one is still taken hold of", {"above": True, "hit": "reach"}, {"above": above, "hit": hit})
    page.ask("Page.chooseCorridor([])")
    page.press("tab-netgraph")
    wanted = [f"✕ {DWELL} dwell +2", f"✕ {RUN}"]
    suite.note("the netgraph", {"told": sorted(wanted)}, {"told": sorted(texts(page, "#netgraph text.broken"))})
    suite.note("ways and rings", {"they": {RED}}, {"they": colors(page, "#netgraph :not(text).broken", "stroke")})
    numbers = page.ask("[...document.querySelectorAll('#netgraph tspan.alarm')].map(each => Number(each.dataset.event)).sort()")
    suite.note("its numbers", {"red": [1, 2, 3, 4, 5]}, {"red": numbers})
    page.press("tab-tables")
    told = "[...document.querySelectorAll('#tables td[data-told]')].map(each => [each.dataset.event, each.dataset.told])"
    in_tables = {"2": f"✕ {RUN} run +1", "3": f"✕ {DWELL} dwell +1", "4": "not at :30", "5": f"✕ {CHANGE} change +1"}
    suite.note("the tables", in_tables, dict(page.ask(told)))
    suite.note("their color", {"it": {RED}}, {"it": colors(page, "#tables td.alarm", "color")})
    page.ask("window.dispatchEvent(new Event('beforeprint'))")
    came = sorted(texts(page, "#printed .front text.broken"))
    suite.note("on paper", {"told": sorted([f"✕ {DWELL} dwell +2", f"✕ {RUN}"])}, {"told": came})
    suite.note("in red", {"they": {RED}}, {"they": colors(page, "#printed .front :not(text).broken", "stroke")})
    takes = page.ask("[...document.querySelectorAll('#printed .connections td.alarm')].map(each => each.textContent)")
    suite.note("its connections", {"takes": ["5 ✕"]}, {"takes": takes})
    page.ask("window.dispatchEvent(new Event('afterprint'))")
    page.press("tab-violated")
    suite.note("the list", {"it": LISTED}, {"it": page.ask(ITEMS)})
    page.ask("Page.step(['time 1 8', 'untime 4', 'time 4 30', 'span 3 15 30', 'span 2 2 6', 'span 4 4 8', 'span 6 3 57'])")
    told = "✕ run of M from Ashford to Benton — takes 2 minutes, may take 13 to 14: 11 too few"
    suite.note("it follows", {"it": [told]}, {"it": page.ask(ITEMS)})
    page.ask("Page.step(['untime 4'])")
    suite.note("without a time the others are told", {"it": "Of what has times: 1 event has no time.Mend all of it" + told}, {"it": page.text("#view-violated")})


# The middle of an element; of a path a point on it.
SPOT = """(() => {{
    const each = {0}, {{ left, top, width, height }} = each.getBoundingClientRect();
    if (!each.getTotalLength) return [left + width / 2, top + height / 2];
    const {{ x, y }} = each.getPointAtLength(0.5 * each.getTotalLength()).matrixTransform(each.getScreenCTM());
    return [x, y];
}})()"""


def many(suite: Suite, page: Hands) -> None:
    """Of very many violations some are drawn, soon, and a remark says so."""
    more = "".join(f"{number}; 3; 5; 30; 40; 1\n" for number in range(100, 3_100))
    begun(page, activities=TRAINS["activities"] + more)
    came = {"drawn": page.ask("document.querySelectorAll('#diagram text.broken').length"), "row": texts(page, '[data-row="5"] .conflict')}
    suite.note("in the diagram", {"drawn": 200, "row": ["✕ 3 not 30–40 activity +2999"]}, came)
    told = "Elided: of 3,000 that are violated on the line the first 200 are shown."
    suite.holds(told, told in page.text("#diagram-note"))


def led(page: Hands) -> Any:
    """The chosen event, and the activity that has the focus."""
    return page.ask("[Page.chosen, Number(document.activeElement.closest('.card.chosen')?.dataset.activity || 0)]")


def leading(suite: Suite, page: Hands) -> None:
    """Each red mark leads by a click to its activity, and each line of the list, also by keys."""
    for place, wanted in enumerate([[1, 1], [2, 2], [2, 4], [3, 6], [4, 0]]):
        violated(page, "violated")
        page.click(*page.middle(f"#view-violated .violated:nth-child({place + 1}) button"))
        page.frame()
        suite.note(f"the list, {place}", {"led": wanted}, {"led": led(page)})
    violated(page, "violated")
    page.ask("document.querySelector('#view-violated .violated:nth-child(3) button').focus()")
    page.type("\n")
    suite.note("the list by keys", {"led": [2, 4]}, {"led": led(page)})
    for name, tab, found, wanted in [
        ("a row", "diagram", "document.querySelector('[data-row=\"3\"] .conflict')", [3, 2]),
        ("the row of another train", "diagram", "document.querySelector('[data-row=\"5\"] .conflict')", [5, 4]),
        ("a text in the diagram", "diagram", "document.querySelector('#diagram text[data-activity=\"6\"]')", [3, 6]),
        ("a turn", "diagram", "document.querySelector('#diagram path[data-activity=\"7\"]')", [6, 7]),
        ("a held event there", "diagram", "document.querySelector('#diagram text[data-event=\"4\"].broken')", [4, 0]),
        ("a lane", "netgraph", "document.querySelector('#netgraph g text.broken[data-activity]')", [1, 1]),
        ("a station", "netgraph", "document.querySelector('#netgraph svg > text.broken[data-activity]')", [2, 2]),
        ("a cell", "tables", "document.querySelector('#tables td[data-event=\"5\"]')", [5, 4]),
    ]:
        violated(page, tab)
        if name == "a turn":
            turning(page)
        page.ask(f"{found}.scrollIntoView({{ block: 'nearest' }})")
        page.click(*page.ask(SPOT.format(found)))
        page.frame()
        suite.note(name, {"led": wanted}, {"led": led(page)})


def turning(page: Hands) -> None:
    """A train that waits at Dale, and goes back, so that the diagram draws its turn."""
    back = "7; B; Benton; Dale; departure\n8; B; Benton; Benton; arrival\nactivity;"
    labels = TRAINS["labels"].replace("activity;", back) + "7; turn\n8; run\n"
    activities = TRAINS["activities"] + "7; 6; 7; 5; 9; 1\n8; 7; 8; 15; 15; 1\n"
    begun(page, activities=activities, labels=labels, times=TRAINS["times"] + "7; 36\n8; 51\n")
    page.ask("Page.choose(6)")
    page.frame()


def choosing(suite: Suite, page: Hands) -> None:
    """Everything drawn is chosen by a click: ends of paths, texts, stations, other lines, lanes, numbers and cells."""
    begun(page)
    for name, place, wanted in [
        ("a run at its begin", (1, 0.2), 1),
        ("a run at its end", (1, 0.8), 2),
        ("a dwell at its end", (2, 0.9), 3),
        ("the last run", (3, 0.7), 4),
    ]:
        page.click(*piece(page, *place)[:2])
        page.frame()
        came = {"chosen": page.ask("Page.chosen"), "keys": page.ask("document.activeElement.id"), "lines": page.lines()}
        suite.note(name, {"chosen": wanted, "keys": "diagram", "lines": []}, came)
    for name, tab, selector, chosen in [
        ("the minute at an end", "diagram", '#diagram text.end[data-event="1"]', [1]),
        ("a station, again and again", "diagram", '#diagram [data-station="Benton"]', [5, 2, 3, 5]),
        ("a number", "netgraph", '#netgraph tspan[data-event="4"]', [4]),
        ("a ring", "netgraph", '#netgraph [data-station="Dale"] .ring', [6]),
        ("the name of a station", "netgraph", '#netgraph [data-station="Ashford"] .place', [1]),
        ("a lane", "netgraph", '#netgraph g[data-event="5"] rect', [5]),
        ("a station in the corridor", "corridor", '#corridor [data-station="Cranley"]', [4]),
        ("a cell", "tables", '#tables td[data-event="3"]', [3]),
    ]:
        begun(page, tab)
        page.ask("Page.choose(1); Page.chooseCorridor(['Ashford', 'Cranley'])")
        page.frame()
        for event in chosen if len(chosen) == 1 else chosen[1:]:
            page.click(*page.middle(selector))
            page.frame()
            came = {"chosen": page.ask("Page.chosen"), "keys": page.ask("document.activeElement.id")}
            suite.note(f"{name}: {event}", {"chosen": event, "keys": tab}, came)
    begun(page)
    page.ask("Page.step(['window 2 8 30'])")
    page.frame()
    left, top, width, _ = page.box('#diagram .can[data-event="2"]')
    page.click(left + width * 0.8, top)
    page.frame()
    suite.note("a mark of what is possible", {"chosen": 2}, {"chosen": page.ask("Page.chosen")})


def other_lines(suite: Suite, page: Hands) -> None:
    """The path of another line in grey is chosen by a click, and then its line is drawn."""
    page.ask("Page.openStory(Page.stories[0]); Page.showTab('diagram')")
    page.frame()
    page.box("#diagram svg")
    found = page.ask("""(() => {
        const own = new Set(Page.view.lines[0].trains.flatMap(train => train.events));
        for (const piece of document.querySelectorAll('#diagram .reach')) {
            const at = piece.getPointAtLength(0.3 * piece.getTotalLength()).matrixTransform(piece.getScreenCTM());
            const event = Number(piece.dataset.event);
            if (!own.has(event) && document.elementFromPoint(at.x, at.y) === piece) return [at.x, at.y, event];
        }
    })()""")
    page.click(*found[:2])
    page.frame()
    came = page.ask("[Page.chosen, Page.find('line-of-diagram').value]")
    suite.note("another line", {"it": [found[2], page.ask(f"Page.labelOf({found[2]}).line")]}, {"it": came})
    suite.holds("it is another one", came[1] != "R1")


def all_by_keys(suite: Suite, page: Hands) -> None:
    """In each view arrow keys go through all events, and Enter goes to the row."""
    for tab in ("diagram", "netgraph", "corridor", "tables"):
        begun(page, tab)
        order = page.ask("[...document.querySelectorAll('[data-row]')].map(each => Number(each.dataset.row))")
        page.ask(f"Page.choose({order[0]}); document.querySelector('#{tab}').focus()")
        reached = [page.ask("Page.chosen")]
        for _ in order[1:]:
            page.key("ArrowDown", CODES["ArrowDown"])
            reached.append(page.ask("Page.chosen"))
        suite.note(f"{tab}, down", {"reached": order}, {"reached": reached})
        page.key("ArrowUp", CODES["ArrowUp"])
        keys = page.ask("[Page.chosen, document.activeElement.id]")
        suite.note(f"{tab}, up", {"it": [order[-2], tab]}, {"it": keys})
        page.type("\n")
        suite.note(f"{tab}, Enter", {"keys": str(order[-2])}, {"keys": page.ask("document.activeElement.dataset.event")})


def fitting(suite: Suite, page: Hands) -> None:
    """With violations nothing is wider than the page, and no text is cut, on wide and on small screens."""
    for width, height in [(1360, 850), (800, 900), (390, 844)]:
        page.resize(width, height)
        shows: Dict[str, Callable[[Hands], None]] = {"two trains": violated, "a region": moved_region}
        for name, show in shows.items():
            show(page)
            for tab in ("diagram", "corridor", "netgraph", "tables", "violated"):
                page.ask(f"Page.showTab('{tab}'); Page.chooseCorridor(Page.view.lines[0].stations)")
                page.frame()
                suite.note(f"{width}, {name}, {tab}", {"wider": 0, "cut": []}, page.ask(LOOK))
        wider = page.ask("Page.find('events').scrollWidth - Page.find('events').clientWidth")
        suite.note(f"{width}, the rows", {"wider": 0}, {"wider": wider})
    page.resize(1440, 900)
    page.ask("Page.showTab('diagram')")


def moved_region(page: Hands) -> None:
    """The region with each of its trains moved by some minutes."""
    page.ask("Page.openStory(Page.stories[0])")
    move = "(train, place) => Page.moveTrain(train.events[3], 2 * place - 7, place % 2 === 1)"
    page.ask(f"Page.view.trains.forEach({move})")
    page.frame()


GROUPS = [in_rows, in_views, many, leading, choosing, other_lines, all_by_keys, fitting]
