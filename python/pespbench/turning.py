"""Shifts a timetable to agree with another one, as the page does (page/script/base/turning.js).

A part of the network in which nothing is held may be shifted as a whole, at the same cost.
"""

from __future__ import annotations

from collections import Counter
from typing import Iterable, Iterator, List, Mapping, Tuple

from pespbench.network import Network, parts_of


def turns(network: Network, times: Mapping[int, int], shown: Mapping[int, int]) -> Iterator[Tuple[List[int], int]]:
    """The events of each part whose times are shifted to agree with those that are shown, and by how many minutes."""
    joins = [(each.from_event, each.to_event) for each in network.activities.values()]
    for part in parts_of(network.windows, joins):
        events = sorted(event for event in part if event in times)
        is_free = len(events) > 1 and all(network.windows[event] is None for event in part)
        turn = turn_of(events, times, shown, network.period) if is_free else 0
        if turn:
            yield events, turn


def turn_of(events: Iterable[int], times: Mapping[int, int], shown: Mapping[int, int], period: int) -> int:
    """The shift by which most of some events agree with the times shown; of several the smallest, either way."""
    votes = Counter((shown[event] - times[event]) % period for event in events if event in shown)
    return max(votes, key=lambda turn: (votes[turn], -min(turn, period - turn), -turn), default=0)
