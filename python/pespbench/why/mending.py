"""The least widening of each member of a conflict that repairs it."""

from __future__ import annotations

import time
from dataclasses import replace
from typing import Callable, Optional

from pespbench.commands import GREATEST_BOUND
from pespbench.why.answers import Mend
from pespbench.why.members import Bounds, Held, Kept, Member, Of, Span, Verdict
from pespbench.why.probe import Probe
from pespbench.why.shapes import Shape

RANKS = {Verdict.POSSIBLE: 0, None: 1, Verdict.UNDECIDED: 2, Verdict.INFEASIBLE: 3}


class Mending:
    """The widenings of a conflict's members, tried on a probe by searches with this many nodes; minimum minutes stay unless
    `lower`."""

    def __init__(self, probe: Probe, kept: dict[Member, Bounds], shape: Optional[Shape], nodes: int, lower: bool) -> None:
        self.probe, self.kept, self.shape, self.nodes, self.lower = probe, kept, shape, nodes, lower

    def mends(self, members: list[Member], until: float) -> list[Mend]:
        """The repairs of some members, best first; until a time, each is also tried in the whole network."""
        found = [mend for mend in map(self.mend, members) if mend]
        found.sort(key=by_minutes)
        found = [self.with_whole(mend) if time.monotonic() < until else mend for mend in found]
        return sorted(found, key=lambda mend: (RANKS[mend.whole], *by_minutes(mend)))

    def mend(self, member: Member) -> Optional[Mend]:
        """The least widening of a member, later if earlier takes as many minutes; None if none is found to repair it."""
        best: Optional[Mend] = None
        for is_later in (True, False) if self.lower or member.of is Of.EVENT else (True,):
            count = self._least_count(member, is_later, best.minutes - 1 if best else self.probe.period)
            if count is not None:
                before = self.kept[member]
                best = Mend(member, before, before.widened(count, is_later), count)
        return best

    def with_whole(self, mend: Mend) -> Mend:
        """The repair, with the result of a search of the whole network."""
        whole = {**self.probe.members, mend.member: mend.after}
        if self.probe.by_domains(whole) is Verdict.INFEASIBLE:
            return replace(mend, whole=Verdict.INFEASIBLE)
        return replace(mend, whole=self.probe.by_search(whole, self.nodes))

    def _least_count(self, member: Member, is_later: bool, most: int) -> Optional[int]:
        """The least number of minutes, up to a limit, that repairs; None if the limit does not."""
        bounds, period = self.kept[member], self.probe.period
        if isinstance(bounds, Held):
            most = min(most, period - bounds.length)
        else:
            # A minimum does not fall below 0 unless it was there.
            room = GREATEST_BOUND - bounds.upper if is_later else bounds.lower + (GREATEST_BOUND if bounds.lower < 0 else 0)
            most = min(most, period - 1 - (bounds.upper - bounds.lower), room)

        def is_mended(count: int) -> bool:
            changed: Kept = {**self.kept, member: bounds.widened(count, is_later)}
            return self.probe.by_search(changed, self.nodes) is Verdict.POSSIBLE

        return least_number(most, is_mended, self._guess(member, is_later))

    def _guess(self, member: Member, is_later: bool) -> int:
        """The minutes by which a circle or a path misses the required number; 1 if it is neither."""
        if self.shape is None:
            return 1
        (_, below), (above, _) = self.shape.wanted
        forward = [each.activity.number for each in self.shape.steps if each.is_forward]
        is_along = member.number in forward if member.of is Of.ACTIVITY else member.number == self.shape.steps[0].start
        return above - self.shape.most if is_later == is_along else self.shape.least - below


def least_number(most: int, holds: Callable[[int], bool], guess: int) -> Optional[int]:
    """The least number from 1 to a limit for which a test holds, if it holds for all greater ones too.

    The guess is tried first; if it is right, two tests are enough. None if the test fails at the limit.
    """
    low, high = 0, most + 1
    while high - low > 1:
        if low < guess < high:
            middle = guess
        elif guess == high:
            # The guess passes; if it is the least number, the one below fails.
            middle, guess = guess - 1, 0
        else:
            middle = (low + high) // 2
        low, high = (low, middle) if holds(middle) else (middle, high)
    return high if high <= most else None


def by_minutes(mend: Mend) -> tuple[int, str, int]:
    """A key by which repairs of few minutes come first, then activities before events, then by number."""
    return mend.minutes, mend.member.of.value, mend.member.number
