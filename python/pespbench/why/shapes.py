"""Whether a conflict is a circle of activities or a path between two windows, and how long it takes."""

from __future__ import annotations

from dataclasses import dataclass
from typing import Optional, Sequence, Union

from pespbench.network import Activity
from pespbench.why.members import Held, Kept, Of


@dataclass(frozen=True)
class Step:
    """An activity of a path, and whether the path runs along it or against it."""

    activity: Activity
    is_forward: bool

    @property
    def start(self) -> int:
        """The event at which the path enters the activity."""
        return self.activity.from_event if self.is_forward else self.activity.to_event

    @property
    def end(self) -> int:
        """The event at which the path leaves the activity."""
        return self.activity.to_event if self.is_forward else self.activity.from_event


@dataclass(frozen=True)
class Chain:
    """Activities that return to their first event, so that they have to take a whole number of periods."""

    steps: list[Step]
    period: int

    @property
    def least(self) -> int:
        """The least minutes along the path."""
        return least_of(self.steps)

    @property
    def most(self) -> int:
        """The most minutes along the path."""
        return -least_of(back_of(self.steps))

    @property
    def wanted(self) -> tuple[tuple[int, int], tuple[int, int]]:
        """The possible durations of the path: the nearest below, and the nearest above, each from the least to the most."""
        return self._wanted(0, 0)

    def _wanted(self, shortest: int, width: int) -> tuple[tuple[int, int], tuple[int, int]]:
        # The last one that begins below the most minutes of the path; as none fits, it ends below the least.
        below = shortest + (self.most - shortest) // self.period * self.period
        return (below, below + width), (below + self.period, below + self.period + width)


class Circle(Chain):
    """Activities that come back to where they began, so that they have to take a whole number of periods."""


@dataclass(frozen=True)
class Way(Chain):
    """Activities from one held event to another."""

    first: Held
    last: Held

    @property
    def wanted(self) -> tuple[tuple[int, int], tuple[int, int]]:
        """The same, by the windows at its ends."""
        return self._wanted(self.last.first - (self.first.first + self.first.length - 1), self.first.length + self.last.length - 2)


Shape = Union[Circle, Way]


def least_of(steps: Sequence[Step]) -> int:
    """The least minutes along some steps; an activity in the opposite direction subtracts its minutes."""
    return sum(step.activity.lower if step.is_forward else -step.activity.upper for step in steps)


def back_of(steps: Sequence[Step]) -> list[Step]:
    """The same steps in the other direction."""
    return [Step(step.activity, not step.is_forward) for step in reversed(steps)]


def shape_of(kept: Kept, activities: dict[int, Activity], period: int) -> Optional[Shape]:
    """The circle or the path that a set of members forms, or None if it is neither."""
    used = [activities[member.number] for member in kept if member.of is Of.ACTIVITY]
    windows = {member.number: bounds for member, bounds in kept.items() if isinstance(bounds, Held)}
    if len(windows) not in (0, 2) or not used:
        return None
    start = min(windows, default=used[0].from_event)
    steps = walk(start, used)
    events = [start, *(step.end for step in steps)]
    if len(steps) != len(used) or len(set(events)) != len(steps) + bool(windows):
        return None
    steps = turned(steps)
    if windows:
        is_way = set(windows) == {events[0], events[-1]}
        return Way(steps, period, windows[steps[0].start], windows[steps[-1].end]) if is_way else None
    return Circle(steps, period) if events[-1] == start else None


def walk(start: int, activities: Sequence[Activity]) -> list[Step]:
    """The steps from an event on, as long as there is exactly one unused; at the first event of a circle any."""
    left = list(activities)
    steps: list[Step] = []
    event = start
    while left:
        following = [each for each in left if event in (each.from_event, each.to_event)]
        if not following or (steps and len(following) > 1):
            break
        steps.append(Step(following[0], following[0].from_event == event))
        left.remove(following[0])
        event = steps[-1].end
    return steps


def turned(steps: list[Step]) -> list[Step]:
    """The steps in the direction in which they take time rather than subtract it; otherwise in that of most activities."""
    return max(steps, back_of(steps), key=lambda way: (least_of(way), sum(step.is_forward for step in way)))
