"""The possible members of a conflict: the span of an activity, or the fixed time or window of an event."""

from __future__ import annotations

from dataclasses import dataclass
from enum import Enum
from typing import Mapping, Union

from pespbench.network import Network


class Verdict(Enum):
    """The result of a test of a set of members."""

    INFEASIBLE = "infeasible"
    POSSIBLE = "possible"
    UNDECIDED = "undecided"


class Of(Enum):
    """The activity or event of a member."""

    ACTIVITY = "activity"
    EVENT = "event"


@dataclass(frozen=True)
class Member:
    """An activity with its span, or an event with its window, by number."""

    of: Of
    number: int


@dataclass(frozen=True)
class Span:
    """The least and the most minutes of an activity."""

    lower: int
    upper: int

    def is_binding(self, period: int) -> bool:
        """Whether some pair of times does not meet it."""
        return self.upper - self.lower < period - 1

    def widened(self, count: int, is_later: bool) -> Span:
        """The span with this many minutes more above, or below."""
        return Span(self.lower, self.upper + count) if is_later else Span(self.lower - count, self.upper)


@dataclass(frozen=True)
class Held:
    """The window of an event: its first minute, and how many it has."""

    first: int
    length: int
    period: int

    def is_binding(self, period: int) -> bool:
        """Whether some time is outside of it."""
        return self.length < period

    def widened(self, count: int, is_later: bool) -> Held:
        """The window with this many minutes more after it, or before it."""
        first = self.first if is_later else (self.first - count) % self.period
        return Held(first, self.length + count, self.period)


Bounds = Union[Span, Held]
# The members of a set, each with its span or window.
Kept = Mapping[Member, Bounds]


def members_of(network: Network) -> dict[Member, Bounds]:
    """The members that exclude something: activities ascending, then events."""
    period = network.period
    spans = {Member(Of.ACTIVITY, number): Span(each.lower, each.upper) for number, each in sorted(network.activities.items())}
    held = {Member(Of.EVENT, event): Held(each.first, each.length, period) for event, each in sorted(network.windows.items()) if each}
    found: dict[Member, Bounds] = {**spans, **held}
    return {member: bounds for member, bounds in found.items() if bounds.is_binding(period)}
