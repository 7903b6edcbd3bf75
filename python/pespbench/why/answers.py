"""The answers of `why`."""

from __future__ import annotations

from dataclasses import dataclass
from typing import Optional, Union

from pespbench.why.members import Bounds, Member, Span, Verdict
from pespbench.why.shapes import Shape


@dataclass(frozen=True)
class Possible:
    """A timetable meets everything: a time below the period for each event."""

    times: dict[int, int]


@dataclass(frozen=True)
class Undecided:
    """Neither a timetable nor a conflict was found, by searches with up to this many nodes."""

    nodes: int


@dataclass(frozen=True)
class Mend:
    """The least widening of one member that removes the conflict, by minutes more, or less if `is_less`.

    `whole` says whether the whole network then has a timetable, and is None if that was not searched.
    """

    member: Member
    before: Bounds
    after: Bounds
    minutes: int
    whole: Optional[Verdict] = None

    @property
    def is_less(self) -> bool:
        """Whether it lowers the least minutes of an activity."""
        return isinstance(self.before, Span) and isinstance(self.after, Span) and self.after.lower < self.before.lower


@dataclass(frozen=True)
class Conflict:
    """Members that cannot be met together, even without all other constraints.

    `without` has for each member the result of a search with `nodes` nodes of the set without it: a timetable, or nothing. If each
    has a timetable, the set is truly minimal; otherwise that search only shows no smaller set to be infeasible. `mends` are in the
    order of preference: those that repair the whole network before the others, and among them by minutes.
    """

    members: dict[Member, Bounds]
    hard: frozenset[Member]
    nodes: int
    without: dict[Member, Verdict]
    shape: Optional[Shape]
    mends: list[Mend]

    @property
    def is_least(self) -> bool:
        """Whether a timetable was found for the set without any one of its members."""
        return all(verdict is Verdict.POSSIBLE for verdict in self.without.values())


Why = Union[Possible, Undecided, Conflict]
