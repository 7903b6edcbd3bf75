"""Which spans are widened, and to what."""

from __future__ import annotations

from dataclasses import dataclass
from typing import Collection, List, Optional, Set

from pespbench.answers import Found
from pespbench.client import Bench
from pespbench.commands import GREATEST_BOUND
from pespbench.faults import WrongWords
from pespbench.helps.answers import Gain
from pespbench.labels import USUALLY_KEPT
from pespbench.network import Activity
from pespbench.terminal import shown

# The kind of an activity that has none.
NO_KIND = "activity"


@dataclass(frozen=True)
class Question:
    """An activity with another span, and the cost of the least minutes that this removes."""

    activity: int
    lower: int
    upper: int
    paid: int

    @classmethod
    def of(cls, activity: Activity, minutes: int, period: int) -> "Question":
        """The span wider by this many minutes, or the narrowest one that already excludes nothing, if that is less wide."""
        lower, upper = activity.lower, activity.upper
        count = min(abs(minutes), period - 1 - (upper - lower))
        if minutes > 0:
            return cls(activity.number, lower, upper + count, 0)
        return cls(activity.number, lower - count, upper, count * activity.weight)

    @property
    def edit(self) -> str:
        """The command that sets it."""
        return f"span {self.activity} {self.lower} {self.upper}"

    def is_legal(self) -> bool:
        """Whether the program accepts such a span."""
        return -GREATEST_BOUND <= self.lower and self.upper <= GREATEST_BOUND

    def gain(self, before: Found, found: Found) -> Gain:
        """The result with it, compared with the best of the unchanged network."""
        old, new = before.cost, found.cost
        saves = None if old is None or new is None else old - (new - self.paid)
        return Gain(self.activity, self.lower, self.upper, found, saves)


def questions(bench: Bench, kinds: Optional[Collection[str]], minutes: int) -> List[Question]:
    """One for each activity of some kinds that excludes something, those with the greatest cost in the working timetable first.

    Raises WrongWords for an unknown kind.
    """
    network, times, chosen = bench.network, bench.times, chosen_kinds(bench, kinds)

    def cost(each: Activity) -> int:
        has_times = each.from_event in times and each.to_event in times
        return each.slack(network.period, times) * each.weight if has_times else 0

    fit = [each for each in network.activities.values() if each.upper - each.lower < network.period - 1]
    asked = sorted((each for each in fit if kind_of(bench, each.number) in chosen), key=lambda each: (-cost(each), each.number))
    return [each for each in (Question.of(activity, minutes, network.period) for activity in asked) if each.is_legal()]


def kind_of(bench: Bench, activity: int) -> str:
    """The kind of an activity, by the bench's labels."""
    return bench.labels.kind(activity) or NO_KIND


def chosen_kinds(bench: Bench, kinds: Optional[Collection[str]]) -> Set[str]:
    """The kinds in question: by default all except those that are usually kept, if there are others.

    Raises WrongWords for a kind that no activity has.
    """
    known = {kind_of(bench, number) for number in bench.network.activities}
    if kinds is None:
        return known.difference(USUALLY_KEPT) or known
    unknown = sorted(set(kinds) - known)
    if unknown:
        raise WrongWords(f"no activity is of the kind {', '.join(map(shown, unknown))}; there are {', '.join(map(shown, sorted(known)))}")
    return set(kinds)
