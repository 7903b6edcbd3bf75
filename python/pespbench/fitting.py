"""Whether an answer fits the network, since a program may be another one than it claims."""

from __future__ import annotations

from itertools import islice
from operator import lt
from typing import Mapping

from pespbench.answers import Domain, Optimum, Stopped, Tension, Violations
from pespbench.network import Activity, Network

# An upper limit of all costs (docs/FORMATS.md, *Limits*).
COSTS = range(12_000_000_000_000_000)
NUMBERS = range(1_000_000_000)


def fits(answer: object, network: Network) -> bool:
    """Whether the activities of an answer are those of the network, and its times below the period; other answers fit."""
    if isinstance(answer, int):
        return answer in COSTS
    if isinstance(answer, Domain):
        return is_domain(answer, network.period)
    if isinstance(answer, dict):
        return all(isinstance(row, Domain) and is_domain(row, network.period) for row in answer.values()) or are_tensions(answer, network)
    if isinstance(answer, (Optimum, Stopped)):
        return answer.cost is None or answer.cost in COSTS and are_times(answer.times, network)
    return True


def are_known(violations: Violations, network: Network) -> bool:
    """Whether the violated activities and events are in the network."""
    return network.activities.keys() >= set(violations.activities) and network.windows.keys() >= set(violations.events)


def are_times(times: Mapping[int, int], network: Network) -> bool:
    """Whether there is a time for each event, and for no other."""
    residues = range(network.period)
    return times.keys() == network.windows.keys() and all(time in residues for time in times.values())


def is_domain(domain: Domain, period: int) -> bool:
    """Whether the residues of a domain ascend from 0 to below the period."""
    residues = domain.residues
    return all(map(lt, residues, islice(residues, 1, None))) and (not residues or residues[0] >= 0 and residues[-1] < period)


def are_tensions(answer: Mapping[int, object], network: Network) -> bool:
    """Whether there is a tension for each activity."""
    rows = [row for row in answer.values() if isinstance(row, Tension) and row.activity in network.activities]
    is_each = len(rows) == len(answer) == len(network.activities)
    return is_each and all(is_tension(row, network.activities[row.activity], network.period) for row in rows)


def is_tension(row: Tension, activity: Activity, period: int) -> bool:
    """Whether an activity can have this slack, and then has this tension."""
    return row.slack in range(period) and row.tension == activity.lower + row.slack


def is_whole(network: Network) -> bool:
    """Whether the windows of a network fit its period, and the ends of its activities exist."""
    windows = [window for window in network.windows.values() if window is not None]
    are_held = all(0 <= each.first < network.period and 1 <= each.length <= network.period for each in windows)
    if not all(number in NUMBERS for number in (*network.windows, *network.activities)):
        return False
    ends = {event for each in network.activities.values() for event in (each.from_event, each.to_event)}
    return are_held and ends <= network.windows.keys() and all(each.lower <= each.upper for each in network.activities.values())
