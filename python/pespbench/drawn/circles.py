"""Circles of a generated region, and the one span that is moved so that a circle cannot be closed."""

from __future__ import annotations

from dataclasses import replace
from typing import Iterable, Iterator

from pespbench.drawn.numbers import Numbers
from pespbench.drawn.region import Region, RegionActivity

# An activity of a circle, and 1 if the circle runs along it or -1 if it runs against it.
Step = tuple[RegionActivity, int]
# The greatest distance of a moved circle from a whole number of periods, if its width leaves room.
MOST_MISSED = 6


class Tree:
    """A spanning tree of narrow activities, grown from them one by one."""

    def __init__(self, activities: Iterable[RegionActivity]) -> None:
        self.steps: dict[int, list[tuple[int, Step]]] = {}
        self.outside: list[RegionActivity] = []
        parts: dict[int, set[int]] = {}
        for activity in sorted(activities, key=lambda each: (each.width, each.number)):
            first, last = (parts.setdefault(event, {event}) for event in (activity.first, activity.last))
            if first is last:
                self.outside.append(activity)
                continue
            first |= last
            parts.update((event, first) for event in last)
            self.steps.setdefault(activity.first, []).append((activity.last, (activity, 1)))
            self.steps.setdefault(activity.last, []).append((activity.first, (activity, -1)))

    def way(self, first: int, last: int) -> list[Step]:
        """The steps of the only path within the tree."""
        ways: dict[int, list[Step]] = {first: []}
        waiting = [first]
        while last not in ways:
            event = waiting.pop()
            for following, step in self.steps[event]:
                if following not in ways:
                    ways[following] = [*ways[event], step]
                    waiting.append(following)
        return ways[last]

    def circles(self) -> Iterator[list[Step]]:
        """For each activity outside the tree, the circle that it closes."""
        for activity in self.outside:
            yield [(activity, 1), *self.way(activity.last, activity.first)]


def reach(circle: list[Step]) -> tuple[int, int]:
    """The least and the most minutes round a circle."""
    least = sum(each.lower if sign > 0 else -each.upper for each, sign in circle)
    most = sum(each.upper if sign > 0 else -each.lower for each, sign in circle)
    return least, most


def moved_off(region: Region, numbers: Numbers) -> Region | None:
    """The region with one span moved so that a circle misses every whole number of periods; None if all are too wide."""
    for circle in numbers.shuffled(list(Tree(region.activities).circles())):
        least, most = reach(circle)
        room = region.period - 2 - (most - least)
        movable = [step for step in circle if step[0].kind in ("turnaround", "change")]
        if room < 0 or not movable:
            continue
        missed = 1 + numbers.below(min(MOST_MISSED, room + 1))
        activity, sign = movable[numbers.below(len(movable))]
        # Longer by this, the circle begins just above the whole number of periods that it could have taken.
        move = -(-least // region.period) * region.period + missed - least
        moved = replace(activity, lower=activity.lower + sign * move, upper=activity.upper + sign * move)
        if moved.lower > 0:
            rows = [moved if each is activity else each for each in region.activities]
            return replace(region, activities=rows)
    return None
