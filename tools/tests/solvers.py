"""The formulation by cycles of the Python package, compared with enumeration, on random networks."""

import random
import re
import shutil
import time
from pathlib import Path
from typing import Callable, Dict, Iterable, Iterator, List, Mapping, Optional, Sequence, Tuple
from unittest import mock

from measuring.solvers import network_of
from pespbench.models import by_cycles
from pespbench.models.basis import Arc, independent, is_integral, range_of
from tests.harness import Suite, patient, run, within
from tests.rules import Row

NETWORKS = 200
# The number of networks with the basis that is used if narrow cycles are not integral.
OTHERS = 50
# The solver gets no more networks after this many seconds.
SECONDS = 10
SOLVERS: Dict[str, Tuple[Callable[[str], List[str]], bytes]] = {
    "glpsol": (lambda model: ["glpsol", "--lp", model, "-o", "/dev/stdout"], rb"Status: +(?:INTEGER )?OPTIMAL\nObjective: +cost = (\S+)"),
    "cbc": (lambda model: ["cbc", model, "solve", "quit"], rb"Result - Optimal solution found\n+Objective value: +(\S+)|Optimal - objective value (\S+)"),
}


def drawn_network(draw: random.Random) -> Tuple[int, List[Row], List[Tuple[int, int]]]:
    """A period, activities and fixed times: in parts, with loops, parallel activities and spans past the period. Most have a
    timetable."""
    period, events, is_met = draw.randint(2, 12), draw.randint(1, 5), draw.randrange(4) > 0
    times = [draw.randrange(period) for _ in range(events)]
    rows: List[Row] = []
    for number in range(1, draw.randint(1, 9) + 1):
        first, last = draw.randrange(events), draw.randrange(events)
        width = draw.choice([0, draw.randrange(period), draw.randrange(period), draw.randrange(2 * period)])
        tension = times[last] - times[first] if is_met else draw.randrange(period)
        lower = tension + draw.randint(-2, 2) * period - draw.randint(0, width)
        rows.append((number, first, last, lower, lower + width, draw.choice([0, 1, draw.randint(0, 50)])))
    named = sorted({event for row in rows for event in row[1:3]})
    return period, rows, [(event, times[event]) for event in named if not draw.randrange(3)]


def costs_of(period: int, rows: Sequence[Row], fixed: Mapping[int, int], times: Mapping[int, int], events: Sequence[int]) -> Iterator[int]:
    """The cost of each timetable with these times, from which those of the other events follow."""
    known = [row for row in rows if row[1] in times and row[2] in times]
    slacks = [(times[last] - times[first] - lower) % period for _, first, last, lower, *_ in known]
    if any(slack > row[4] - row[3] for slack, row in zip(slacks, known)):
        return
    if not events:
        yield sum(slack * row[5] for slack, row in zip(slacks, known))
        return
    for time in [fixed[events[0]]] if events[0] in fixed else range(period):
        yield from costs_of(period, rows, fixed, {**times, events[0]: time}, events[1:])


def least_cost(period: int, rows: Sequence[Row], fixed: Sequence[Tuple[int, int]]) -> Optional[int]:
    """The least cost of all timetables, or None if there is none. If no time is fixed, all may be shifted until the first is 0."""
    events = sorted({event for row in rows for event in row[1:3]})
    return min(costs_of(period, rows, dict(fixed) or {events[0]: 0}, {}, events), default=None)


def solved_cost(solver: str, path: Path) -> Optional[int]:
    """The cost in a solver's output, or None if it found no timetable."""
    command, told = SOLVERS[solver]
    found = re.search(told, run(command(str(path)))["standard output"])
    return round(float(next(filter(None, found.groups())))) if found else None


def try_networks(suite: Suite, solver: str, title: str, numbers: Iterable[int], ends: float) -> None:
    """The same least cost on random networks, as long as there is time."""
    path = suite.folder / "model.lp"
    for number in numbers:
        if time.monotonic() > ends:
            print(f"  {title}: drawn networks from {number} on were not tried, since {patient(SECONDS)} seconds are over")
            return
        period, rows, fixed = drawn_network(random.Random(number))
        path.write_text(by_cycles(network_of(rows, fixed, period)).lp())
        wanted = {"least cost": least_cost(period, rows, fixed)}
        suite.note(f"{title}, drawn network {number}", wanted, {"least cost": solved_cost(solver, path)})


def integral(suite: Suite) -> None:
    """Independent modulo two, and yet with a determinant of 3: each of four arcs is missing from one cycle."""
    threes = [{place: 1 for place in range(4) if place != left} for left in range(4)]
    came = {"kept": len(independent(threes)), "integral": is_integral(threes, set())}
    suite.note("cycles that are no integral basis", {"kept": 4, "integral": False}, came)
    suite.holds("cycles over an arc each are one", is_integral([{place: -1, 9: 1} for place in range(4)], {9}))


def ranges(suite: Suite) -> None:
    """A slack of 25 against the cycle and one of 3 along it, at period 10; and a cycle of slack 0 that is not a whole number of
    periods."""
    arcs = [Arc("along", 1, 2, 9, 3, 1), Arc("against", 1, 2, 2, 25, 1), Arc("still", 1, 1, 7, 0, 1)]
    suite.note("periods of a cycle", {"range": (7, -1, 1)}, {"range": range_of(arcs, {0: 1, 1: -1}, 10)})
    suite.note("periods that no slack makes", {"range": (7, 0, 1)}, {"range": range_of(arcs, {2: 1}, 10)})


@within(240)
def cycles(suite: Suite) -> None:
    integral(suite)
    ranges(suite)
    solver = next(filter(shutil.which, SOLVERS), None)
    if not solver:
        print("  the formulation by cycles was not tried: neither glpsol nor cbc is here")
        return
    ends = time.monotonic() + patient(SECONDS)
    try_networks(suite, solver, "by narrow cycles", range(NETWORKS), ends)
    with mock.patch("pespbench.models.basis.is_integral", return_value=False):
        try_networks(suite, solver, "by cycles over least ways", range(OTHERS), ends)


GROUPS = [cycles]
