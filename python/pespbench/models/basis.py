"""A network as arcs, and a basis of narrow cycles, whose times can sum to few numbers of periods."""

from __future__ import annotations

import heapq
from typing import Dict, Iterable, List, Mapping, NamedTuple, Sequence, Set, Tuple

from pespbench.network import Activity, Network

# The origin of all times; all other nodes are events.
ORIGIN = -1
# The arcs of a cycle by their places, each with its sign: 1 along the cycle, -1 against it.
Cycle = Dict[int, int]
# For each node its arcs: the place, the sign, the node at the other end.
Near = Dict[int, List[Tuple[int, int, int]]]
# The limits of the search for narrow cycles, nodes times arcs and arcs beyond nodes: it takes half a minute at most.
MOST_WAYS, MOST_CYCLES = 1_000_000, 500


class Arc(NamedTuple):
    """An activity, or the window of an event, which leads to it from the origin."""

    name: str
    first: int
    last: int
    lower: int
    width: int
    weight: int = 0


def width_of(activity: Activity, period: int) -> int:
    """The greatest slack that an activity can have in a timetable."""
    return min(activity.upper - activity.lower, period - 1)


def asking(network: Network) -> List[Activity]:
    """The activities, ascending, except those that admit every residue at no cost."""
    listed = [network.activities[number] for number in sorted(network.activities)]
    return [each for each in listed if width_of(each, network.period) < network.period - 1 or each.weight > 0]


def arcs_of(network: Network) -> List[Arc]:
    """All arcs that exclude something."""
    period = network.period
    arcs = [Arc(f"y{each.number}", each.from_event, each.to_event, each.lower, width_of(each, period), each.weight) for each in asking(network)]
    windows = [(event, network.windows[event]) for event in network.events]
    held = [Arc(f"w{event}", ORIGIN, event, each.first, each.length - 1) for event, each in windows if each and each.length < period]
    return arcs + held


def arcs_by_node(arcs: Sequence[Arc]) -> Near:
    """For each node its arcs: the place, the sign, the node at the other end."""
    near: Near = {}
    for place, arc in enumerate(arcs):
        near.setdefault(arc.first, []).append((place, 1, arc.last))
        near.setdefault(arc.last, []).append((place, -1, arc.first))
    return near


def least_ways(arcs: Sequence[Arc], near: Near, start: int) -> Dict[int, Cycle]:
    """The path from a node to each that it reaches, of least width, and of equal ones with fewest arcs."""
    ways: Dict[int, Cycle] = {}
    waiting: List[Tuple[int, int, int, int, int, int, int]] = [(0, 0, 0, start, 0, 0, start)]
    order = 0
    while waiting:
        width, steps, _, node, place, sign, before = heapq.heappop(waiting)
        if node in ways:
            continue
        ways[node] = {**ways[before], place: sign} if steps else {}
        for place, sign, other in near[node]:
            if other not in ways:
                order += 1
                heapq.heappush(waiting, (width + arcs[place].width, steps + 1, order, other, place, sign, node))
    return ways


def cycles_over(arcs: Sequence[Arc], ways: Mapping[int, Cycle]) -> List[Cycle]:
    """For each arc between nodes with paths, the cycle over it and both, without their common part; none for an arc of a path."""
    found = []
    for place, arc in enumerate(arcs):
        if arc.first in ways:
            cycle = dict(ways[arc.first])
            cycle[place] = cycle.get(place, 0) + 1
            for other, sign in ways[arc.last].items():
                cycle[other] = cycle.get(other, 0) - sign
            found.append({other: sign for other, sign in cycle.items() if sign})
    return [cycle for cycle in found if cycle]


def independent(cycles: Iterable[Cycle]) -> List[Cycle]:
    """Those that are not a sum, modulo two, of earlier ones."""
    kept: List[Cycle] = []
    reduced: Dict[int, int] = {}
    for cycle in cycles:
        bits = sum(1 << place for place in cycle)
        while bits and bits.bit_length() in reduced:
            bits ^= reduced[bits.bit_length()]
        if bits:
            reduced[bits.bit_length()] = bits
            kept.append(cycle)
    return kept


def is_integral(cycles: Sequence[Cycle], tree: Set[int]) -> bool:
    """Whether each cycle is an integer sum of these: their determinant over the arcs outside a tree is 1 or -1.

    Modulo two it is only known to be odd, and then the formulation might admit solutions that are not timetables.
    """
    beside = sorted({place for cycle in cycles for place in cycle} - tree)
    matrix = [[cycle.get(place, 0) for place in beside] for cycle in cycles]
    last = 1
    for step in range(len(matrix)):
        pivot = next((row for row in range(step, len(matrix)) if matrix[row][step]), None)
        if pivot is None:
            return False
        matrix[step], matrix[pivot] = matrix[pivot], matrix[step]
        top = matrix[step]
        for row in range(step + 1, len(matrix)):
            head = matrix[row][step]
            matrix[row] = [(top[step] * entry - head * above) // last for entry, above in zip(matrix[row], top)]
        last = top[step]
    return abs(last) == 1


def basis_of(arcs: Sequence[Arc]) -> List[Cycle]:
    """Horton's narrow cycles if these are integral and small enough to compute, and otherwise those over the least paths from one
    node of each part."""
    near = arcs_by_node(arcs)
    reached: Set[int] = set()
    tree: Set[int] = set()
    candidates: List[Cycle] = []
    fundamental: List[Cycle] = []
    is_looked_for = len(near) * len(arcs) <= MOST_WAYS and len(arcs) - len(near) <= MOST_CYCLES
    for node in near:
        if node in reached and not is_looked_for:
            continue
        ways = least_ways(arcs, near, node)
        cycles = cycles_over(arcs, ways)
        candidates += cycles
        if node not in reached:
            reached.update(ways)
            fundamental += cycles
            tree.update(place for way in ways.values() for place in way)
    if not is_looked_for:
        return fundamental
    narrow = independent(sorted(candidates, key=lambda cycle: (sum(arcs[place].width for place in cycle), len(cycle))))
    return narrow if is_integral(narrow, tree) else fundamental


def range_of(arcs: Sequence[Arc], cycle: Cycle, period: int) -> Tuple[int, int, int]:
    """The sum of the signed lower bounds, and the least and the greatest number of periods that slacks can make of it."""
    total = sum(sign * arcs[place].lower for place, sign in cycle.items())
    least = total - sum(arcs[place].width for place, sign in cycle.items() if sign < 0)
    most = total + sum(arcs[place].width for place, sign in cycle.items() if sign > 0)
    return (total, *periods_within(least, most, period))


def periods_within(least: int, most: int, period: int) -> Tuple[int, int]:
    """The least and the greatest number of periods between two numbers; if there is none, two that no equation can meet."""
    first, last = sorted([-(-least // period), most // period])
    return first, last
