"""Lines and trains from labels, the layout of stations, the room of a netgraph, and the marks of an axis."""

import json
from itertools import combinations
from math import dist
from typing import Any, Dict, Iterable, Sequence, Tuple

from page_tests.hands import Hands
from page_tests.lines import NETWORK
from page_tests.slips import ON_EACH_OTHER
from pespbench.drawn import Region, draw_region
from tests.harness import Suite, within

CLEARANCE = 26


def laid_out_by(page: Hands, stations: Sequence[str], lengths: Sequence[Tuple[Sequence[str], int]]) -> Any:
    """The places of stations, some of which are joined by tracks of a length."""
    rows = [[json.dumps(sorted(ends)), length] for ends, length in lengths]
    tracks = f"new Map({json.dumps(rows)}.map(([ends, length]) => [Page.trackOf(...JSON.parse(ends)), length]))"
    return page.ask(f"Object.fromEntries(Page.atOnce(Page.layOut({json.dumps(stations)}, {tracks})))")


def distances(suite: Suite, page: Hands) -> None:
    """Stations are laid out about as far apart as trains need."""
    places = laid_out_by(page, ["a", "b", "c", "d"], [("ab", 10), ("bc", 20), ("cd", 30)])
    along = [places[station][0] for station in "abcd"]
    suite.holds("along a line", along in (sorted(along), sorted(along, reverse=True)))
    suite.holds("as far apart", abs(dist(places["a"], places["d"]) - 60) <= 3)
    apart = laid_out_by(page, ["a", "b", "c"], [("ab", 2), ("bc", 3)])
    suite.holds("a way over two tracks", abs(dist(apart["a"], apart["c"]) - 5) <= 0.5 and abs(dist(apart["a"], apart["b"]) - 2) <= 0.5)
    places = laid_out_by(page, ["a", "b", "c"], [("ab", 10)])
    suite.note("a part of its own", {"places": 3}, {"places": len({(round(x), round(y)) for x, y in places.values()})})
    tracks = [([f"{station}{part}" for station in ends], 10) for part in range(7) for ends in ("ab", "bc", "cd", "da", "ac")]
    places = laid_out_by(page, [f"{station}{part}" for part in range(7) for station in "abcd"], tracks)
    boxes = [[sorted(places[f"{station}{part}"][axis] for station in "abcd")[::3] for axis in (0, 1)] for part in range(7)]
    over = [pair for pair in combinations(boxes, 2) if all(max(one[0], other[0]) < min(one[1], other[1]) for one, other in zip(*pair, strict=True))]
    suite.note("parts are beside each other", {"over": [], "rows": True}, {"over": over, "rows": 1 < len({round(box[1][0]) for box in boxes}) < 7})
    suite.note("alone, and none", {"one": ["a"], "none": []}, {"one": list(laid_out_by(page, ["a"], [])), "none": list(laid_out_by(page, [], []))})
    spread = page.ask("""[...Page.atOnce(Page.spread(new Map([['a', [0, 0]], ['b', [0, 0]], ['c', [0, 0]]]), [{ one: 'a', other: 'b', along: 80, beside: 10 }],
        new Map([['a', 10], ['b', 10], ['c', 10]]), [500, 300])).values()]""")
    suite.holds("in one place", min(dist(one, other) for one, other in combinations(spread, 2)) > 40)


def texts_of(region: Region) -> Dict[str, str]:
    """The files of a region, without places."""
    rows = {
        "activities": [f"{each.number}; {each.first}; {each.last}; {each.lower}; {each.upper}; {each.weight}" for each in region.activities],
        "times": [f"{each.number}; {each.time}" for each in region.events],
        "labels": ["event; line; to; station; kind", *(f"{each.number}; {each.line}; {each.to}; {each.station}; {each.kind}" for each in region.events),
                   "activity; kind", *(f"{each.number}; {each.kind}" for each in region.activities)],
        "period": ["60"],
    }  # fmt: skip
    return {name: "".join(f"{row}\n" for row in listed) for name, listed in rows.items()}


def names_apart(suite: Suite, page: Hands) -> None:
    """On the netgraph of the first story no name of a station lies on a minute, and all of it is within the drawing."""
    page.again()
    page.press("tab-netgraph")
    page.drawn()
    came = page.ask(ON_EACH_OTHER.replace("SELECTOR", "#netgraph :is(text.place, text.minutes)"))
    names = page.ask("[...document.querySelectorAll('#netgraph text.place')].map(each => each.textContent)")
    suite.note("they", {"on a minute": []}, {"on a minute": [pair for pair in came["found"] if any(name in pair for name in names)]})
    suite.holds(f"{came['count']} texts", came["count"] > 100)
    for name, texts in [("short names", NETWORK), ("the region", None)]:
        if texts:
            page.show(texts)
        else:
            page.again()
        page.press("tab-netgraph")
        page.drawn()
        beyond = page.ask(
            """(() => {
            const within = document.querySelector('#netgraph > svg').getBoundingClientRect();
            return [...document.querySelectorAll('#netgraph :is(.ring, text)')].filter(each => {
                const { left, right, top, bottom } = each.getBoundingClientRect();
                return left < within.left || right > within.right || top < within.top || bottom > within.bottom;
            }).map(each => each.textContent || each.parentNode.dataset.station);
        })()"""
        )
        suite.note(f"{name}: beyond the drawing", {"they": []}, {"they": beyond})
    page.press("tab-diagram")


@within(120)
def room(suite: Suite, page: Hands) -> None:
    """On the netgraph of a region stations are apart from each other, and each line is known with its stations in order."""
    for seed in range(1, 9):
        page.show(texts_of(draw_region(seed)))
        page.ask("Page.showTab('netgraph')")
        rings = page.ask("[...document.querySelectorAll('#netgraph .ring')].map(each => ['cx', 'cy', 'r'].map(name => Number(each.getAttribute(name))))")
        near = [1 for one, other in combinations(rings, 2) if dist(one[:2], other[:2]) <= one[2] + other[2] + CLEARANCE]
        suite.note(f"seed {seed}", {"near": [], "stations": len({each.station for each in draw_region(seed).events})}, {"near": near, "stations": len(rings)})
    page.show(texts_of(draw_region(1)))
    lines = page.ask("Page.view.lines.map(line => [line.name, line.stations, line.trains.map(train => [train.to, Page.isForward(line, train), train.stations])])")
    suite.note("lines", {"names": ["R1", "R2", "R3", "R4", "R5", "R6"]}, {"names": [name for name, _, _ in lines]})
    for name, stations, trains in lines:
        suite.note(f"{name}: where its trains go", {"to": [stations[-1], stations[0]]}, {"to": [to for to, _, _ in trains]})
        suite.holds(f"{name}: in order", all((way if is_forward else way[::-1]) == stations for _, is_forward, way in trains))
    page.ask("Page.showTab('diagram')")


def labelled(page: Hands, labels: Sequence[Sequence[str]], steps: Sequence[Tuple[int, int, str]]) -> None:
    """Opens events with labels, numbered from 1, and activities between them."""
    rows = ["event; line; to; station; kind", *(f"{number}; {'; '.join(label)}" for number, label in enumerate(labels, 1))]
    rows += ["activity; kind", *(f"{number}; {kind}" for number, (_, _, kind) in enumerate(steps, 1) if kind)]
    activities = [f"{number}; {first}; {last}; 5; 6; 1" for number, (first, last, _) in enumerate(steps, 1)]
    alone = sorted(set(range(1, len(labels) + 1)) - {event for first, last, _ in steps for event in (first, last)})
    files: Dict[str, Iterable[str]] = {"activities": activities, "labels": rows, "period": ["60"], "events": map(str, alone)}
    page.show({name: "".join(f"{row}\n" for row in listed) for name, listed in files.items()})


def trains(suite: Suite, page: Hands) -> None:
    """A train is a chain of runs and dwells, possibly circular; lines are in the order of their names, numbers in numeric order."""
    stations = "XYYZZX"
    labelled(page, [("C", "", stations[place], ("departure", "arrival")[place % 2]) for place in range(6)], [(place, place % 6 + 1, "") for place in range(1, 7)])
    came = page.ask("Page.view.lines.map(line => [line.stations, line.trains.map(train => train.events)])")
    suite.note("a ring", {"lines": [[["X", "Y", "Z"], [[1, 2, 3, 4, 5, 6]]]]}, {"lines": came})
    pair = [("M", "Y", "X", "departure"), ("M", "Y", "Y", "arrival")]
    labelled(page, pair * 2, [(1, 2, "run"), (3, 4, "run"), (1, 3, "headway")])
    suite.note("a headway is no way", {"trains": [[1, 2], [3, 4]]}, {"trains": page.ask("Page.view.lines[0].trains.map(train => train.events)")})
    labelled(page, [(name, "Y", "X", "departure") for name in ("R10", "R2", "A", "7")], [])
    suite.note("names", {"lines": ["7", "A", "R2", "R10"]}, {"lines": page.ask("Page.view.lines.map(line => line.name)")})


def axes(suite: Suite, page: Hands) -> None:
    """No axis has more than a dozen marks, of which two are at most half an hour apart in an hour."""
    most = page.ask("Math.max(...[...Array(1439).keys()].map(each => (each + 2) / Page.stepOf(each + 2)))")
    suite.holds(f"at most a dozen marks, here {most}", most <= 12)
    suite.note("up to an hour", {"steps": [1, 1, 2, 5, 5, 5]}, {"steps": page.ask("[10, 12, 13, 30, 31, 60].map(each => Page.stepOf(each))")})


def minutes_told(suite: Suite, page: Hands) -> None:
    """Runs of minutes, and bare ones of tables, are written with the hour above an hour."""
    for period, runs, bare in [(60, ":00–:01, :05", ["07", "59"]), (120, "0:00–0:01, 0:05", ["0:07", "0:59"])]:
        page.show({"activities": "1; 1; 2; 3; 5; 2\n", "period": f"{period}\n"})
        came = page.ask(f"({{ runs: Page.domainText([0, 1, 5], {period}), bare: [7, 59].map(Page.bareClock) }})")
        suite.note(f"period {period}", {"runs": runs, "bare": bare}, came)


GROUPS = [distances, names_apart, room, trains, axes, minutes_told]
