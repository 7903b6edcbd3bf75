"""A corridor: its stations are chosen, all trains on them are drawn, and headways are bands."""

import re
import time
from typing import Any, Dict, List, Sequence, Tuple

from page_tests import large
from page_tests.browser import Place
from page_tests.fingers import tap, touch
from page_tests.hands import Hands
from tests.harness import Suite, within

# A line, its destination, and its stations with minutes.
Train = Tuple[str, str, Sequence[Tuple[str, int]]]
# A line that stops at B and an express that passes it, two of each in an hour, a train back, and one from elsewhere.
TRAINS: List[Train] = [
    ("L", "C", [("A", 0), ("B", 10), ("B", 12), ("C", 20)]),
    ("L", "C", [("A", 30), ("B", 40), ("B", 42), ("C", 50)]),
    ("X", "C", [("A", 5), ("C", 20)]),
    ("X", "C", [("A", 35), ("C", 50)]),
    ("L", "A", [("C", 55), ("B", 3), ("B", 5), ("A", 15)]),
    ("Z", "E", [("D", 7), ("E", 17)]),
]


def texts_of(trains: Sequence[Train], headways: Sequence[Tuple[int, int, int, int]], period: int = 60) -> Dict[str, str]:
    """The files of trains, each a line, its destination and its stations with minutes, and of headways between events."""
    events: List[str] = []
    times: List[str] = []
    rows: List[str] = []
    kinds: List[str] = []
    for line, to, stops in trains:
        for place, (station, minute) in enumerate(stops):
            number = len(events) + 1
            is_arrival = place == len(stops) - 1 or (place > 0 and stops[place + 1][0] == station)
            events.append(f"{number}; {line}; {to}; {station}; {'arrival' if is_arrival else 'departure'}\n")
            times.append(f"{number}; {minute}\n")
            if place:
                takes = (minute - stops[place - 1][1]) % period
                rows.append(f"{len(rows) + 1}; {number - 1}; {number}; {takes}; {takes + 2}; 1\n")
                kinds.append(f"{len(rows)}; {'dwell' if stops[place - 1][0] == station else 'run'}\n")
    for first, last, lower, upper in headways:
        rows.append(f"{len(rows) + 1}; {first}; {last}; {lower}; {upper}; 0\n")
        kinds.append(f"{len(rows)}; headway\n")
    labels = ["event; line; to; station; kind\n", *events, "activity; kind\n", *kinds]
    return {"activities": "".join(rows), "times": "".join(times), "labels": "".join(labels), "period": f"{period}\n"}


# From the first train 4 minutes to the express, and 3 after the express to the first train.
HOURLY = texts_of(TRAINS, [(1, 9, 4, 57)])
NUMBER = r"(-?[0-9.]+)"


def ring(page: Hands, station: str) -> Place:
    """The middle of a station on the netgraph."""
    return page.middle(f'#netgraph [data-station="{station}"] .ring')


def corridor(page: Hands) -> Any:
    """The stations of the corridor."""
    return page.ask("Page.corridor.stations")


def points(page: Hands, selector: str) -> List[List[List[Tuple[int, str]]]]:
    """The points of each path of the corridor's diagram, in minutes and stations."""
    # Both are asked at once, since the diagram is drawn again if its view changes size.
    heights, paths = page.ask(
        f"""[Object.fromEntries([...document.querySelectorAll('#corridor .station')].map((each, place) =>
        [each.getAttribute('d').match(/ ([0-9.]+)H/)[1], Page.corridor.stations[place]])),
        [...document.querySelectorAll('#corridor {selector}')].map(each => each.getAttribute('d'))]"""
    )
    period, named = page.ask("Page.view.network.period"), {f"{float(y):.1f}": name for y, name in heights.items()}
    left, width = page.across("corridor")
    return [
        [
            [(round((float(x) - left) / width * period), named.get(y, "")) for x, y in re.findall(rf"{NUMBER} {NUMBER}", part)]
            for part in path.split("M")[1:]
        ]
        for path in paths
    ]


def stations_chosen(suite: Suite, page: Hands) -> None:
    """Stations are chosen on the netgraph by clicks, keys and a finger, and by name; routes between them are filled in."""
    page.again()
    page.press("tab-netgraph")
    page.click(*ring(page, "Gorsley"))
    page.frame()
    suite.note("a click", {"stations": ["Gorsley"]}, {"stations": corridor(page)})
    came = {"chosen": page.ask("Page.labelOf(Page.chosen).station"), "keys": page.ask("document.activeElement.id")}
    suite.note("it chooses an event there too", {"chosen": "Gorsley", "keys": "netgraph"}, came)
    page.click(*ring(page, "Marden"))
    page.frame()
    filled = ["Gorsley", "Dale", "Norwood", "Kelby", "Marden"]
    suite.note("and another one", {"stations": filled}, {"stations": corridor(page)})
    on = page.ask("[...document.querySelectorAll('#netgraph .on')].map(each => each.dataset.station).sort()")
    suite.note("they are marked", {"on": sorted(filled)}, {"on": on})
    page.ask("document.querySelector('#netgraph [data-station=\"Inworth\"]').focus()")
    page.key("Enter", 13)
    page.frame()
    suite.note("Enter on a station", {"stations": [*filled, "Inworth"]}, {"stations": corridor(page)})
    page.click(*ring(page, "Dale"))
    page.frame()
    suite.holds("one between stays", "Dale is in the corridor" in page.said() and len(corridor(page)) == 6)
    touch(page)
    tap(page, ring(page, "Inworth"))
    touch(page, is_on=False)
    suite.note("a finger on one that was chosen", {"stations": filled}, {"stations": corridor(page)})
    page.press("tab-corridor")
    page.fill("#corridor-stations input", "inw\n")
    suite.note("by name", {"stations": [*filled, "Inworth"]}, {"stations": corridor(page)})
    page.ask("[...document.querySelectorAll('#corridor-stations button')].find(each => each.textContent === 'Turn round').focus()")
    page.key("Enter", 13)
    page.type("\n")
    suite.note("turned", {"stations": ["Inworth", *filled[::-1]]}, {"stations": corridor(page)})
    suite.note("the keys stay on it", {"on": "Turn round"}, {"on": page.ask("document.activeElement.textContent")})
    page.click(*page.middle("#corridor-stations li:first-of-type button"))
    page.frame()
    suite.note("one is taken out", {"stations": filled[::-1]}, {"stations": corridor(page)})
    page.show(HOURLY)
    suite.note("in another network", {"stations": []}, {"stations": corridor(page)})


def traffic(suite: Suite, page: Hands) -> None:
    """All trains of all lines on the stations are drawn with their minutes, also two in an hour and those that pass stations."""
    page.again()
    page.show(HOURLY)
    page.press("tab-corridor")
    page.fill("#corridor-stations input", "a\n")
    page.fill("#corridor-stations input", "c\n")
    suite.note("an express is no way of its own", {"stations": ["A", "B", "C"]}, {"stations": corridor(page)})
    wanted = [
        [[(minute, station) for station, minute in stops]] for _, _, stops in TRAINS[:4]
    ]
    back = [(-5, "C"), (3, "B"), (5, "B"), (15, "A")]
    wanted.insert(2, [back, [(minute + 60, station) for minute, station in back]])
    drawn = points(page, ".way")
    suite.note("ways", {"they": sorted(wanted)}, {"they": sorted(drawn)})
    names = page.ask("[...document.querySelectorAll('#corridor .train title')].map(each => each.textContent).sort()")
    suite.note(
        "their names",
        {"they": ["L to A: C :55", "L to C: A :00", "L to C: A :30", "X to C: A :05", "X to C: A :35"]},
        {"they": names},
    )
    place = page.ask(
        """(() => {
        const way = [...document.querySelectorAll('#corridor .train')].find(each => /X to C: A :35/.test(each.textContent)).querySelector('.way');
        const { x, y } = way.getPointAtLength(0.9 * way.getTotalLength()).matrixTransform(way.getScreenCTM());
        return [x, y];
    })()"""
    )
    page.click(*place)
    page.frame()
    suite.note("a click on a train", {"chosen": 12}, {"chosen": page.ask("Page.chosen")})
    page.drag([page.grip(12, "now"), page.minute(12, 52)])
    moved = points(page, ".train.chosen .way")
    suite.note("a time that is dragged", {"way": [[[(35, "A"), (52, "C")]]]}, {"way": moved})
    page.show(texts_of([*TRAINS[:1], ("Y", "C", [("A", 2), ("C", 8)])], []))
    page.ask("Page.chooseCorridor(['A', 'B', 'C'])")
    wanted = [[[(minute, station) for station, minute in TRAINS[0][2]]], [[(2, "A")]], [[(8, "C")]]]
    suite.note("a train that runs elsewhere between two stations", {"ways": wanted}, {"ways": points(page, ".way")})
    page.ask("Page.step(['span 4 10 12'])")
    broken = {"ways": points(page, 'path.broken[data-activity="4"]'), "told": page.text('#corridor text.broken[data-activity="4"]')[:11]}
    suite.note("which is violated where it leaves", {"ways": [[[(2, "A"), (8, "A")]]], "told": "6 not 10–12"}, broken)
    page.show({**HOURLY, "times": ""})
    came = {"ways": points(page, ".way"), "told": "shown between events with times: " in page.text("#corridor-note")}
    suite.note("without times", {"ways": [], "told": True}, came)


def bands(suite: Suite, page: Hands) -> None:
    """After a train its headways are a band along its run, as wide as the minutes that they keep free."""
    page.again()
    page.show(HOURLY)
    page.ask("Page.showTab('corridor'); Page.chooseCorridor(['A', 'B', 'C'])")
    slow, fast = [(0, "A"), (10, "B"), (14, "B"), (4, "A")], [(5, "A"), (20, "C"), (23, "C"), (8, "A")]
    suite.note("bands", {"they": [[slow], [fast]]}, {"they": points(page, ".band")})
    titles = page.ask("[...document.querySelectorAll('#corridor .band title')].map(each => each.textContent)")
    wanted = ["Headway: 4 minutes after L to C (:00)", "Headway: 3 minutes after X to C (:05)"]
    suite.note("their names", {"they": wanted}, {"they": titles})
    number = page.ask("[...Page.labels.kinds].find(([, kind]) => kind === 'headway')[0]")
    page.ask(f"Page.step(['span {number} 6 57'])")
    wider = [(0, "A"), (10, "B"), (16, "B"), (6, "A")]
    suite.note("a headway of 6 minutes", {"first": [wider]}, {"first": points(page, ".band")[0]})
    for span, free in [("66 117", [[1, 6], [9, 3]]), ("0 59", []), ("0 57", [[9, 3]])]:
        page.ask(f"Page.step(['span {number} {span}'])")
        suite.note(f"a span {span}", {"free": free}, {"free": page.ask("[...Page.keptFree(Page.view.network)]")})
    page.ask(f"Page.step(['span {number} 4 57']); Page.chooseCorridor(['A', 'E'])")
    came = page.ask("document.querySelectorAll('#corridor .band').length")
    told = "No way leads on from A to E." in page.text("#corridor-note")
    suite.note("where their runs are not drawn", {"bands": 2, "told": True}, {"bands": came, "told": told})
    page.ask("Page.openStory(Page.stories[0]); Page.chooseCorridor(['Gorsley', 'Inworth'])")
    came = page.ask("[...Page.keptFree(Page.view.network)].length")
    suite.note("in the region: events at which 3 minutes are kept free", {"they": 22}, {"they": came})


@within(120)
def many_trains(suite: Suite, page: Hands) -> None:
    """In a network of 2,048 events a corridor through a region is chosen and drawn soon."""
    page.again()
    page.show(large.texts())
    began = time.monotonic()
    page.ask("Page.chooseCorridor([...Page.view.lines[0].stations])")
    page.press("tab-corridor")
    suite.holds(f"drawn in {time.monotonic() - began:.1f} s", time.monotonic() - began < 20)
    known, trains = set(corridor(page)), page.ask("Page.view.trains.map(train => train.stations)")
    wanted = sum(any(one in known and other in known for one, other in zip(each, each[1:])) for each in trains)
    drawn = page.ask("document.querySelectorAll('#corridor .train').length")
    suite.holds(f"{drawn} ways of {wanted} trains that run there", drawn >= wanted > 2)


GROUPS = [stations_chosen, traffic, bands, many_trains]
