"""Regions in one network: the first timetable of least cost consists of those of the regions."""

import sys
from typing import Dict, List, Sequence, Tuple

from measuring.drawn import draw, piece_of, some_fixed
from measuring.network import text_of
from tests.harness import TOP, Suite, run, within

NARROW, WIDE = (10, 35), (30, 55)
PERIOD = 60

# Event, event, lower and upper bound, weight.
Row = Tuple[int, int, int, int, int]
# A cost, and a time for each event in their order.
Best = Tuple[int, List[int]]


def drawn(seed: int, widths: Tuple[int, int]) -> List[Row]:
    """A region whose events have the numbers from 1 on."""
    sys.path.insert(0, str(TOP / "python"))
    from pespbench.drawn import draw_region

    region = draw_region(seed, True, widths)
    of = {event: place for place, event in enumerate(sorted(each.number for each in region.events), 1)}
    return [(of[each.first], of[each.last], each.lower, each.upper, each.weight) for each in region.activities]


def beside(regions: Sequence[List[Row]], shared: int = 0) -> List[Row]:
    """All of them in one network, each with its events after those of the one before, of which it shares this many."""
    rows: List[Row] = []
    for region in regions:
        before = max((max(row[:2]) for row in rows), default=shared) - shared
        rows += [(first + before, last + before, lower, upper, weight) for first, last, lower, upper, weight in region]
    return rows


def best(suite: Suite, rows: Sequence[Row], name: str, *lines: bytes) -> Best:
    """The reply to `optimum` after some lines."""
    text = "".join("; ".join(map(str, (number, *row))) + "\n" for number, row in enumerate(rows, 1))
    words = [suite.program, "--period", str(PERIOD), suite.file(name, text.encode())]
    reply = run(words, given=b"\n".join([*lines, b"optimum"]))["standard output"].decode().splitlines()[len(lines) :]
    times: Dict[int, int] = {int(event): int(time) for event, time in map(str.split, reply[1:])}
    return int(reply[0].split()[1]), [times[event] for event in sorted(times)]


def together(suite: Suite, title: str, regions: Sequence[List[Row]], alone: Sequence[Best]) -> None:
    cost, times = sum(each for each, _ in alone), [time for _, each in alone for time in each]
    told = best(suite, beside(regions), title.replace(" ", "-"))
    suite.note(f"{title} beside each other", {"cost": cost, "times": times}, {"cost": told[0], "times": told[1]})
    joined = best(suite, beside(regions, shared=1), f"joined-{title.replace(' ', '-')}")
    suite.note(f"{title}, each of which shares an event with the next", {"cost": cost}, {"cost": joined[0]})


@within(240)
def several_regions(suite: Suite) -> None:
    for word, widths in [("narrow", NARROW), ("wide", WIDE)]:
        regions = [drawn(seed, widths) for seed in range(1, 5)]
        alone = [best(suite, region, f"{word}{number}") for number, region in enumerate(regions)]
        for count in (2, 3, 4):
            together(suite, f"{count} {word} regions", regions[:count], alone[:count])


@within(240)
def a_region_let_go(suite: Suite) -> None:
    """A region that is held by a fixed time, beside one that is not."""
    regions = [drawn(seed, NARROW) for seed in (1, 2)]
    held = best(suite, regions[0], "held", b"fix 3 17")
    other = best(suite, regions[1], "other")
    told = best(suite, beside(regions), "both", b"fix 3 17")
    suite.note("one region of two is held", {"cost": held[0] + other[0], "times": held[1] + other[1]}, {"cost": told[0], "times": told[1]})


@within(60)
def a_region_held_all_over(suite: Suite) -> None:
    """A region of 380 events with eight fixed times ends in seconds, and in minutes if their domains make cycles: no clause
    guarantees that they do not. Its cost is that of other solvers."""
    lines = 22
    rows, times = piece_of(draw(1, True, NARROW, lines), lines)
    fixed = some_fixed(times)
    words = [suite.program, "--period", str(PERIOD), suite.file("large", text_of(rows).encode())]
    words += ["--fixed", suite.file("large-fixed", text_of(fixed).encode())]
    reply = run(words, given=b"optimum")["standard output"].decode().splitlines()
    told = {int(event): int(time) for event, time in map(str.split, reply[1:])}
    wanted = {"reply": f"optimum 53114 {len(times)}", "fixed": fixed}
    suite.note("380 events, eight fixed", wanted, {"reply": reply[0], "fixed": [(event, told[event]) for event, _ in fixed]})


GROUPS = [several_regions, a_region_let_go, a_region_held_all_over]
