"""What the program answers, as types. Times and lengths are whole units of the period, most often minutes."""

from __future__ import annotations

from dataclasses import dataclass, field
from types import MappingProxyType
from typing import ClassVar, Dict, Iterator, List, Mapping, Optional, Sequence, Tuple, Union


def runs(numbers: Sequence[int]) -> List[Tuple[int, int]]:
    """The runs of consecutive numbers in an ascending sequence, each with its first and its last."""
    found: List[Tuple[int, int]] = []
    for number in numbers:
        if found and found[-1][1] == number - 1:
            found[-1] = (found[-1][0], number)
        else:
            found.append((number, number))
    return found


@dataclass(frozen=True)
class Domain:
    """When an event can be: `residues` ascend, each below the period. If it is empty, no timetable is possible."""

    event: int
    residues: Tuple[int, ...]

    def __iter__(self) -> Iterator[int]:
        return iter(self.residues)

    def runs(self) -> str:
        """The residues as text, as in `0-3, 42-53, 58`; `none` if there is none."""
        return ", ".join(str(a) if a == b else f"{a}-{b}" for a, b in runs(self.residues)) or "none"

    def text(self) -> str:
        """The domain line of the program, without its line feed."""
        return " ".join([f"{self.event}:", *map(str, self.residues)])


@dataclass(frozen=True)
class Tension:
    """The tension of an activity in the working timetable, which is its lower bound plus `slack`."""

    activity: int
    tension: int
    slack: int

    def __iter__(self) -> Iterator[int]:
        return iter((self.activity, self.tension, self.slack))

    def text(self) -> str:
        """The line of the program, without its line feed."""
        return f"{self.activity} {self.tension} {self.slack}"


@dataclass(frozen=True)
class Violations:
    """What the working timetable violates: activities that are not met, and events that are not in their window, ascending."""

    activities: Tuple[int, ...]
    events: Tuple[int, ...]

    def __len__(self) -> int:
        return len(self.activities) + len(self.events)

    def __iter__(self) -> Iterator[Tuple[str, int]]:
        """Each as its word and number: `activity`, then `event`."""
        yield from (("activity", number) for number in self.activities)
        yield from (("event", number) for number in self.events)

    def text(self) -> str:
        """The reply of the program."""
        lines = [f"violations {len(self)}", *(f"activity {number}" for number in self.activities)]
        return "".join(f"{line}\n" for line in [*lines, *(f"event {number}" for number in self.events)])


# Each result of a search has the same four fields. `cost` and `times` are those of its timetable, or None and empty if there is
# none; no timetable costs less than `lower_bound`, which is None if no bound is known; and `is_proved` says whether the search
# ended, so that nothing else can be found.


@dataclass(frozen=True)
class Optimum:
    """The best timetable: its cost, and a time below the period for each event, ascending by event."""

    cost: int
    times: Mapping[int, int]
    is_proved: ClassVar[bool] = True

    @property
    def lower_bound(self) -> int:
        """The cost itself."""
        return self.cost

    def __iter__(self) -> Iterator[Tuple[int, int]]:
        """Each event with its time."""
        return iter(self.times.items())

    def text(self) -> str:
        """The reply of the program."""
        return _timetable("optimum", self.cost, self.times)


@dataclass(frozen=True)
class Infeasible:
    """No timetable meets everything."""

    cost: ClassVar[None] = None
    times: ClassVar[Mapping[int, int]] = MappingProxyType({})
    lower_bound: ClassVar[None] = None
    is_proved: ClassVar[bool] = True

    def __iter__(self) -> Iterator[Tuple[int, int]]:
        """No event has a time."""
        return iter(())

    def text(self) -> str:
        """The reply of the program."""
        return "infeasible\n"


@dataclass(frozen=True)
class Stopped:
    """A search reached its limit. Other timetables, or better ones, may exist.

    `cost` and `times` are those of the best timetable found, which meets everything; they are None and empty if none was found.
    Searches of `Bench.search` set `lower_bound`, if the engine reports one. Comparisons ignore it.
    """

    cost: Optional[int] = None
    times: Mapping[int, int] = field(default_factory=dict)
    lower_bound: Optional[int] = field(default=None, compare=False)
    is_proved: ClassVar[bool] = False

    def __iter__(self) -> Iterator[Tuple[int, int]]:
        """Each event with its time."""
        return iter(self.times.items())

    def is_below(self, cost: Optional[int]) -> bool:
        """Whether there is a timetable that is cheaper than this cost, or any if the cost is None."""
        return self.cost is not None and (cost is None or self.cost < cost)

    def text(self) -> str:
        """The reply of the program."""
        return "stopped none\n" if self.cost is None else _timetable("stopped", self.cost, self.times)


def _timetable(word: str, cost: int, times: Mapping[int, int]) -> str:
    rows = "".join(f"{event} {times[event]}\n" for event in sorted(times))
    return f"{word} {cost} {len(times)}\n{rows}"


Found = Union[Optimum, Infeasible, Stopped]


Answer = Union[None, int, str, Domain, Dict[int, Domain], Dict[int, Tension], Violations, Optimum, Infeasible, Stopped]
