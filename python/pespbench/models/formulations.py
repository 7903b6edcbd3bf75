"""The two formulations of a network, and the timetable that the columns of each give."""

from __future__ import annotations

from typing import Callable, Dict, List, Mapping, NamedTuple, Tuple

from pespbench.models.basis import ORIGIN, arcs_by_node, arcs_of, asking, basis_of, periods_within, range_of, width_of
from pespbench.models.model import Column, Model, Row
from pespbench.network import Network

# The values of columns by their names; one that is in no row and costs nothing may be missing.
Values = Mapping[str, int]


class Formulation(NamedTuple):
    """How a network is written as a model, and the times of events that its columns give."""

    model: Callable[[Network], Model]
    times: Callable[[Network, Values], Dict[int, int]]


def by_times(network: Network) -> Model:
    """A whole time for each event; whole periods and a slack for each activity, in an equation with the times of its ends."""
    period, bounds = network.period, {event: time_bounds(network, event) for event in network.events}
    columns = [Column(f"t{event}", *bounds[event], is_whole=True) for event in network.events]
    slacks, rows = [], []
    for each in asking(network):
        (low, high), (least, most) = bounds[each.from_event], bounds[each.to_event]
        is_loop, width = each.from_event == each.to_event, width_of(each, period)
        ends = [] if is_loop else [(f"t{each.to_event}", 1), (f"t{each.from_event}", -1)]
        before, after = (0, 0) if is_loop else (low - most, high - least)
        periods = periods_within(each.lower + before, each.lower + width + after, period)
        columns.append(Column(f"p{each.number}", *periods, is_whole=True))
        slacks.append(Column(f"y{each.number}", 0, width, each.weight))
        rows.append(Row(f"a{each.number}", [*ends, (f"p{each.number}", period), (f"y{each.number}", -1)], each.lower))
    return Model.of(title_of(network, "times"), [*columns, *slacks], rows)


def told_by_times(network: Network, values: Values) -> Dict[int, int]:
    """The times that columns give; an event without one is at the first time of its window."""
    return {event: values.get(f"t{event}", time_bounds(network, event)[0]) % network.period for event in network.events}


def time_bounds(network: Network, event: int) -> Tuple[int, int]:
    """The first and the last time of an event, which may be in the next period."""
    window = network.windows[event]
    return (0, network.period - 1) if window is None else (window.first, window.first + window.length - 1)


def by_cycles(network: Network) -> Model:
    """A slack for each activity and window; whole periods for each cycle of a basis, to which the tensions around it sum."""
    arcs, period = arcs_of(network), network.period
    slacks = [Column(arc.name, 0, arc.width, arc.weight) for arc in arcs]
    periods, rows = [], []
    for number, cycle in enumerate(basis_of(arcs)):
        total, least, most = range_of(arcs, cycle, period)
        periods.append(Column(f"z{number}", least, most, is_whole=True))
        terms = [(arcs[place].name, sign) for place, sign in sorted(cycle.items())]
        rows.append(Row(f"c{number}", [*terms, (f"z{number}", -period)], -total))
    return Model.of(title_of(network, "cycles"), [*slacks, *periods], rows)


def told_by_cycles(network: Network, values: Values) -> Dict[int, int]:
    """The times that result from slacks, from 0 at the origin, and at one event of each part that is not connected to it."""
    arcs = arcs_of(network)
    near, times = arcs_by_node(arcs), {ORIGIN: 0}
    for start in [ORIGIN, *network.events]:
        times.setdefault(start, 0)
        waiting: List[int] = [start]
        while waiting:
            node = waiting.pop()
            for place, sign, other in near.get(node, []):
                if other not in times:
                    tension = arcs[place].lower + values.get(arcs[place].name, 0)
                    times[other] = (times[node] + sign * tension) % network.period
                    waiting.append(other)
    return {event: times[event] for event in network.events}


def title_of(network: Network, name: str) -> str:
    """The network of a model."""
    return f"{len(network.windows)} events and {len(network.activities)} activities at period {network.period}, by {name}"


FORMULATIONS: Dict[str, Formulation] = {
    "cycles": Formulation(by_cycles, told_by_cycles),
    "times": Formulation(by_times, told_by_times),
}
