"""The state of a running search for the best timetable."""

from __future__ import annotations

from dataclasses import dataclass
from typing import Mapping, Optional

from pespbench.answers import Found


@dataclass(frozen=True)
class Progress:
    """The state of a search, `seconds` after its start.

    `found` is Optimum or Infeasible if everything is known, and otherwise Stopped, with the best timetable so far. No timetable
    that meets everything costs less than `lower_bound`, which is None if the engine has returned none. `is_ended` marks the
    last one: everything is known, or the time is over.
    """

    found: Found
    lower_bound: Optional[int]
    is_ended: bool
    seconds: float

    @property
    def cost(self) -> Optional[int]:
        """The cost of the best timetable so far, or None if there is none yet."""
        return self.found.cost

    @property
    def times(self) -> Optional[Mapping[int, int]]:
        """The best timetable so far, or None if there is none yet."""
        return None if self.cost is None else self.found.times

    @property
    def gap(self) -> Optional[float]:
        """The share of its cost by which the best timetable may exceed the optimum: 0.05 for a twentieth, 0 if none is cheaper.

        It is None if there is no timetable yet, or no lower bound.
        """
        if self.cost is None or self.lower_bound is None:
            return None
        return (self.cost - self.lower_bound) / self.cost if self.cost else 0.0
