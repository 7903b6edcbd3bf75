"""Networks whose optimum is measured, each with its name: random regions and pieces of them, and other kinds."""

import sys
from typing import TYPE_CHECKING, Dict, Iterable, Iterator, List, Mapping, NamedTuple, Sequence, Tuple

from measuring.network import PERIOD, Numbers, activity_rows
from tests.harness import TOP
from tests.rules import Row

if TYPE_CHECKING:
    from pespbench.drawn import Region

SEEDS, OTHER_SEEDS, INFEASIBLE_SEEDS = range(1, 9), range(9, 17), [1, 2]
# The least and the most minutes above its lower bound that a change allows: at most 40 residues, and nearly all.
NARROW, MIDDLE, WIDE = (10, 35), (35, 40), (55, 63)
WIDTHS = [NARROW, WIDE]
LINES = [2, 3, 6]
# Lines of larger regions, some 140, 200, 280 and 380 events, and how many seeds of each.
MORE_LINES = {8: 2, 11: 2, 16: 1, 22: 1}
MORE_SEEDS = [1, 2]
FIXED = 8
PARTS = [14, 50, 100]
SIDES = [5, 7, 9]
TREES = [2_000, 20_000]
WEIGHTS = 10
# Events, activities, and the widths of spans at period 60.
SMALL = [(events, 2 * events, (8, 20)) for events in (8, 10, 12, 14, 16, 20, 24, 30)]
DENSE = [(40, 80, (30, 20)), (40, 120, (30, 20)), (60, 180, (8, 20)), (100, 200, (2, 4)), (100, 400, (2, 4)), (100, 700, (2, 4))]
PERIODS = [30, 120, 1_440]
GREATEST = (20_000, 100_000, 120)


class Drawn(NamedTuple):
    """A network, and whether it is too large for solvers and for its optimum."""

    name: str
    rows: List[Row]
    fixed: List[Tuple[int, int]] = []
    period: int = PERIOD
    is_for_solvers: bool = True
    is_searched: bool = True


def draw(seed: int, feasible: bool, widths: Tuple[int, int], lines: int = LINES[-1]) -> "Region":
    """A region of this many lines."""
    sys.path.insert(0, str(TOP / "python"))
    from pespbench.drawn import draw_region

    return draw_region(seed, feasible, widths, lines)


def piece_of(region: "Region", lines: int) -> Tuple[List[Row], Dict[int, int]]:
    """The rows of the activities of a region's first lines, and the times of their events."""
    names = list(dict.fromkeys(event.line for event in region.events))[:lines]
    times = {event.number: event.time for event in region.events if event.line in names}
    rows: List[Row] = [
        (each.number, each.first, each.last, each.lower, each.upper, each.weight)
        for each in region.activities
        if each.first in times and each.last in times
    ]
    return rows, times


def some_fixed(times: Mapping[int, int]) -> List[Tuple[int, int]]:
    """Events spread over all, with their times."""
    events = sorted(times)
    return [(event, times[event]) for event in events[:: max(1, len(events) // FIXED)][:FIXED]]


def parts_of(count: int) -> Iterator[Row]:
    """Pairs of events without connections to one another, each with an activity there and one back."""
    numbers = Numbers(count)
    for part in range(count):
        first, last = 2 * part + 1, 2 * part + 2
        time, width = numbers.below(PERIOD), PERIOD // 2
        for name, (start, end, tension) in enumerate([(first, last, time), (last, first, PERIOD - time)]):
            lower = tension - numbers.below(width)
            yield 2 * part + name + 1, start, end, lower, lower + width, 1 + numbers.below(WEIGHTS)


def joined(numbers: Numbers, pairs: Iterable[Tuple[int, int]], events: int) -> Iterator[Row]:
    """An activity for each pair, which allows 20 to 49 minutes above its lower bound; some times meet them all."""
    times = [numbers.below(PERIOD) for _ in range(events)]
    for name, (first, last) in enumerate(pairs, 1):
        width = 20 + numbers.below(30)
        lower = (times[last] - times[first]) % PERIOD - numbers.below(width)
        yield name, first, last, lower, lower + width, 1 + numbers.below(WEIGHTS)


def grid(side: int) -> Iterator[Row]:
    """Events in rows and columns, each connected to the next one of both."""
    events = side * side
    beside = [(event, event + 1) for event in range(events) if (event + 1) % side]
    return joined(Numbers(side), beside + [(event, event + side) for event in range(events - side)], events)


def tree(events: int) -> Iterator[Row]:
    """Each event connected to an earlier one."""
    numbers = Numbers(events)
    return joined(numbers, [(numbers.below(event), event) for event in range(1, events)], events)


def longer(rows: Sequence[Row], factor: int) -> List[Row]:
    """The same with a period and spans longer by a factor: the cost rises by the same."""
    return [(name, first, last, lower * factor, upper * factor, weight) for name, first, last, lower, upper, weight in rows]


def beside(regions: Sequence[List[Row]]) -> List[Row]:
    """All of them in one network, unconnected."""
    rows: List[Row] = []
    for region in regions:
        before, last = max((max(row[1:3]) for row in rows), default=0), len(rows)
        rows += [(last + row[0], row[1] + before, row[2] + before, row[3], row[4], row[5]) for row in region]
    return rows


def met(seed: int, events: int, activities: int, widths: Tuple[int, int], period: int = PERIOD) -> List[Row]:
    """Activities between any events, with spans as wide in proportion as at period 60, all met by some times."""
    numbers = Numbers(seed)
    times = [numbers.below(period) for _ in range(events)]
    least, more = (max(1, width * period // PERIOD) for width in widths)
    return list(activity_rows(numbers, activities, times, True, (least, more), period=period))


def regions() -> Iterator[Drawn]:
    """The random regions of six lines and their pieces, with fixed times and without."""
    for widths in WIDTHS:
        for feasible, seeds in [(True, SEEDS), (True, OTHER_SEEDS), (False, INFEASIBLE_SEEDS)]:
            for seed in seeds:
                region = draw(seed, feasible, widths)
                for lines in LINES if seeds == SEEDS else LINES[-1:]:
                    yield from with_fixed(f"{'' if feasible else 'in'}feasible {seed}, changes {widths[0]} to {widths[1]}, {lines} lines", region, lines)


def with_fixed(name: str, region: "Region", lines: int) -> Iterator[Drawn]:
    rows, times = piece_of(region, lines)
    yield Drawn(name, rows)
    yield Drawn(f"{name}, {FIXED} fixed", rows, some_fixed(times))


def larger() -> Iterator[Drawn]:
    """Regions of more lines."""
    for lines, seeds in MORE_LINES.items():
        for widths in [NARROW, MIDDLE, WIDE]:
            for seed in MORE_SEEDS[:seeds]:
                yield from with_fixed(f"larger {seed}, changes {widths[0]} to {widths[1]}, {lines} lines", draw(seed, True, widths, lines), lines)


def others() -> Iterator[Drawn]:
    """Other networks, and regions at other periods: there a span is longer in proportion to the period."""
    for count in PARTS:
        yield Drawn(f"{count} parts of two events", list(parts_of(count)))
    for widths in WIDTHS:
        yield Drawn(f"four regions, changes {widths[0]} to {widths[1]}", beside([piece_of(draw(seed, True, widths), LINES[-1])[0] for seed in range(1, 5)]))
    for side in SIDES:
        yield Drawn(f"a grid of {side} by {side}", list(grid(side)))
    for events in TREES:
        yield Drawn(f"a tree of {events} events", list(tree(events)), is_for_solvers=False)
    for events, activities, widths in SMALL + DENSE:
        for seed in MORE_SEEDS if events <= 30 else MORE_SEEDS[:1]:
            yield Drawn(f"drawn {seed}, {events} events, spans of {widths[0]} to {sum(widths) - 1}, {activities}", met(seed, events, activities, widths))
    for period in PERIODS:
        for events in (20, 60):
            yield Drawn(f"drawn at period {period}, {events} events", met(1, events, 2 * events, (8, 20), period), period=period)
    for factor in (2, 24):
        for widths in WIDTHS:
            region, _ = piece_of(draw(1, True, widths), LINES[-1])
            yield Drawn(f"feasible 1 at period {PERIOD * factor}, changes {widths[0]} to {widths[1]}", longer(region, factor), period=PERIOD * factor)
    events, activities, period = GREATEST
    yield Drawn("the greatest network, period 120", met(1, events, activities, (8, 20), period), [], period, False, False)


def networks() -> Iterator[Drawn]:
    yield from regions()
    yield from larger()
    yield from others()
