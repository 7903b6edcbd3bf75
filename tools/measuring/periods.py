"""The cost of a check, an opening, edits and a node of a search at the greatest period, compared with 60."""

import sys
from math import nan
from pathlib import Path
from statistics import mean
from typing import Callable, Dict, Mapping, NamedTuple, Tuple

from measuring.counting import count, peak
from measuring.keeper import EVENTS_OF_A_FREE_ONE, Network, some_of
from measuring.network import PERIOD, text_of
from tests.limits import GREATEST_PERIOD, most_activities, most_events

TIMES = GREATEST_PERIOD // PERIOD
ROWS = most_activities(GREATEST_PERIOD)
EVENTS = most_events(GREATEST_PERIOD)
WIDTHS = (8, 20)
SEARCHED_EVENTS = 30
SEARCHED_ROWS = 60
# For a search that takes longer.
NODES = 20


class Shape(NamedTuple):
    """A network of some form at a period; widths of spans are at least the first, and less than the sum of both."""

    rows: int
    events: int
    period: int
    widths: Tuple[int, int]

    def at_length(self, times: int) -> "Shape":
        """The same at the greatest period, with spans wider by a factor."""
        first, more = self.widths
        return self._replace(period=GREATEST_PERIOD, widths=(times * first, times * more))


GREATEST = Shape(ROWS, EVENTS, PERIOD, WIDTHS)
# With wide spans each removed residue costs so much more that fewer are enough.
SMALLER = Shape(ROWS // 20, EVENTS // 20, PERIOD, WIDTHS)


def network_of(program: Path, folder: Path, shape: Shape, fixed: Callable[[int], object]) -> Network:
    return Network(program, folder, shape.rows, shape.events, fixed, None, shape.widths, shape.period)


def measure_check(network: Network, folder: Path, shape: Shape) -> float:
    """A check whose times meet everything: instructions for each activity."""
    path = folder / "times.period"
    path.write_text(text_of(enumerate(network.times)))
    return count([*network.words, "--check", "--times", path], network.profile) / shape.rows


def measure_edits(network: Network, shape: Shape) -> Dict[str, float]:
    """The cost of an opening and of edits, with fixed times for nine of ten events; all in one run."""
    spans = [f"span {name} {lower + shape.period} {upper + shape.period}" for name, _, _, lower, upper, _ in some_of(network.rows)]
    free = some_of([event for event in range(shape.events) if event % EVENTS_OF_A_FREE_ONE == 0])
    fix, unfix = [f"fix {event} {network.times[event]}" for event in free], [f"unfix {event}" for event in free]
    edits = [*spans, *fix, *unfix]
    if network.answers(["weight 0 0", *edits])[-3 * len(edits) :] != "ok\n" * len(edits):
        sys.exit(f"tools/measure: an edit at period {shape.period} is refused")
    # A refusal, whose reply marks the end of the opening.
    opening, *each = network.takes_each(["weight 0 0", *edits])
    return {
        "opening, for each activity": (opening - network.reading()) / shape.rows,
        "a span, and nothing moves": mean(each[: len(spans)]),
        "fix": mean(each[len(spans) : -len(free)]),
        "residues that it takes out": (network.pairs([]) - network.pairs(fix)) / len(free),
        "unfix": mean(each[-len(free) :]),
    }


def measure_node(program: Path, folder: Path, shape: Shape) -> float:
    """A node of a search among the first ones, with its push and its pop, and with the work before the first."""
    network = Network(program, folder, SEARCHED_ROWS, SEARCHED_EVENTS, lambda event: False, None, shape.widths, shape.period)
    lines = ["weight 0 0", f"try {NODES}"]
    if network.answers(lines).splitlines()[-1] != "stopped none":
        return nan
    return network.takes_each(lines)[-1] / NODES


def measure_shape(program: Path, folder: Path, shape: Shape) -> Dict[str, float]:
    fixed = network_of(program, folder, shape, lambda event: event % EVENTS_OF_A_FREE_ONE)
    figures = {"a check, for each activity": measure_check(fixed, folder, shape), **measure_edits(fixed, shape)}
    figures["a node of a search"] = measure_node(program, folder, shape)
    figures["peak kB, nine of ten events fixed"] = peak(fixed.words, fixed.memory)
    free = network_of(program, folder, shape, lambda event: False)
    return {**figures, "peak kB, no event fixed": peak(free.words, free.memory)}


def most_ratios(times: int, first: Mapping[str, float], last: Mapping[str, float]) -> Dict[str, float]:
    """By how much each figure may grow: by the period, by the width of spans for each pair that moves, or by neither."""
    moved = last["residues that it takes out"] / first["residues that it takes out"]
    return {
        "a check, for each activity": 1,
        "opening, for each activity": TIMES * times,
        "a span, and nothing moves": TIMES,
        "fix": max(TIMES, moved * times),
        "unfix": TIMES * times,
        "a node of a search": TIMES * times,
    }


def print_beside(program: Path, folder: Path, shape: Shape, times: int) -> None:
    """The figures at both periods, their ratio, and its bound."""
    first, last = (measure_shape(program, folder, each) for each in (shape, shape.at_length(times)))
    most = most_ratios(times, first, last)
    print(f"\n{shape.events} events and {shape.rows} activities, with spans {times} times as wide at period {GREATEST_PERIOD}")
    print(f"{'':>34} {f'at {PERIOD}':>13} {f'at {GREATEST_PERIOD}':>13} {'ratio':>9} {'may be':>9}")
    for name in first:
        may = f"{most[name]:>9.1f}" if name in most else ""
        print(f"{name:>34} {first[name]:>13.1f} {last[name]:>13.1f} {last[name] / first[name]:>9.2f} {may}".rstrip())


def print_periods(program: Path, folder: Path) -> None:
    print_beside(program, folder, GREATEST, 1)
    print_beside(program, folder, SMALLER, TIMES)
