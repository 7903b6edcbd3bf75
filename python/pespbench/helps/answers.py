"""What would help, as an answer."""

from __future__ import annotations

from dataclasses import dataclass
from typing import List, Optional, Tuple

from pespbench.answers import Found


@dataclass(frozen=True)
class Gain:
    """The result with another span.

    Attributes:
        activity: the activity, by number.
        lower, upper: its span then.
        found: the result of a search with it.
        saves: by how much the timetable found is cheaper than the best one of the unchanged network; minutes by which the
            minimum was lowered do not count. None if there is no timetable with it, or none without it.
    """

    activity: int
    lower: int
    upper: int
    found: Found
    saves: Optional[int]

    @property
    def is_sure(self) -> bool:
        """Whether it saves exactly that, and not possibly more."""
        return self.found.is_proved


@dataclass(frozen=True)
class Helps:
    """What would help, as far as it was computed.

    Attributes:
        minutes: by how many each span is widened: above the most, or, if negative, below the least.
        before: the result of a search of the unchanged network, or the working timetable if that is cheaper.
        asked: the number of activities in question.
        answers: their results, in the order of arrival; fewer than `asked` if the time was over.
    """

    minutes: int
    before: Found
    asked: int
    answers: Tuple[Gain, ...] = ()

    @property
    def gains(self) -> List[Gain]:
        """What saves something, the most first; if the unchanged network has no timetable, what gives one, the cheapest first."""
        is_none = self.before.cost is None
        good = [each for each in self.answers if (each.found.cost is not None if is_none else (each.saves or 0) > 0)]
        return sorted(good, key=lambda each: (-(each.saves or 0), each.found.cost or 0, each.activity))
