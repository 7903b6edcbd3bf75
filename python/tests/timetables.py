"""All timetables of small networks, one by one, and their consequences by definition."""

from __future__ import annotations

import itertools
import random
from typing import Dict, Iterator, List, Tuple

from pespbench import Network

Timetable = Dict[int, int]


def timetables(network: Network) -> Iterator[Tuple[Timetable, int]]:
    """Each timetable that meets everything, with its cost."""
    period, events, activities = network.period, network.events, list(network.activities.values())
    for chosen in itertools.product(range(period), repeat=len(events)):
        times = dict(zip(events, chosen))
        are_held = all(window is None or window.holds(period, times[event]) for event, window in network.windows.items())
        if are_held and all(each.slack(period, times) <= each.upper - each.lower for each in activities):
            yield times, sum(each.weight * each.slack(period, times) for each in activities)


def apart(one: int, other: int, period: int) -> int:
    """The minutes between two residues, either way round."""
    return min((one - other) % period, (other - one) % period)


def small_script(draw: random.Random, period: int) -> List[str]:
    """The commands of a network of few events, often with a window, and often without a timetable."""
    events = draw.sample(range(20), draw.randrange(2, 5))
    lines = [f"add event {event}" for event in events]
    for activity in range(draw.randrange(1, 7)):
        lower = draw.randrange(-3, period)
        # Some spans exclude nothing, or are longer than a period.
        upper = lower + draw.randrange(period + 2 if draw.random() < 0.2 else period - 2)
        lines.append(f"add activity {activity} {draw.choice(events)} {draw.choice(events)} {lower} {upper} {draw.randrange(4)}")
    if draw.random() < 0.5:
        lines.append(f"window {draw.choice(events)} {draw.randrange(period)} {draw.randrange(1, period)}")
    return lines
