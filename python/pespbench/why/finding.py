"""Finds the reason why a network has no timetable."""

from __future__ import annotations

import time
from typing import Collection, Optional, Sequence

from pespbench.client import Bench
from pespbench.faults import GivenUp, WrongWords
from pespbench.labels import USUALLY_KEPT, Labels
from pespbench.terminal import shown
from pespbench.why.answers import Conflict, Possible, Undecided, Why
from pespbench.why.members import Kept, Member, Of, Verdict
from pespbench.why.mending import Mending
from pespbench.why.probe import Probe
from pespbench.why.shapes import shape_of
from pespbench.why.shrinking import Test, least, settled

# The nodes of the first search of the whole network, and the factor for each later one.
FIRST_NODES, MORE = 500, 4
# The kind of fixed times and windows, for `hard`.
FIXED = "fixed"


def why(bench: Bench, hard: Optional[Collection[str]] = None, nodes: int = 2_000, seconds: float = 10.0, lower: bool = False) -> Why:
    """A minimal set of activities, fixed times and windows of a network that cannot be met together.

    There is none if the working timetable meets everything, which is checked first. The bench does not change, since a
    program of its own is used. Members outside the conflict are dropped by bisection, as long as an empty domain shows that
    the rest is infeasible; then by searches.

    Args:
        hard: kinds of activities, by the bench's labels, that must not change; `fixed` are fixed times and windows. They may
            be in the conflict, which has as few others as possible, and no repair changes them. By default they are runs,
            dwells and headways, unless the conflict has nothing else.
        nodes: the nodes of each search of a part.
        seconds: about the longest search for a timetable of the whole network, and as long again for repairs.
        lower: whether a repair may also lower the minimum minutes of an activity.

    Raises:
        Ended: the program ended, or did not answer within `seconds`.
        ValueError: a number of nodes or seconds is not above 0, or no label has a kind.
    """
    if nodes < 1 or not seconds > 0:
        raise ValueError("nodes and seconds have to be above 0")
    is_usual = hard is None
    held = hard_members(bench, usually_hard(bench) if hard is None else hard)
    if (standing := bench.standing()).cost is not None:
        return Possible(dict(standing.times))
    with Bench.from_script(bench.dump(), period=bench.period, engine=bench.engine, patience=seconds) as copy:
        return Finding(Probe(copy), held, is_usual, nodes, seconds, lower).answer()


def usually_hard(bench: Bench) -> list[str]:
    """The kinds that must not change, by default."""
    known = set(bench.labels.activities.values())
    return [kind for kind in USUALLY_KEPT if kind in known]


def hard_members(bench: Bench, kinds: Collection[str]) -> frozenset[Member]:
    """The members of some kinds. Raises WrongWords for an unknown kind."""
    labels: Labels = bench.labels
    known = dict.fromkeys([*sorted(filter(None, set(labels.activities.values()))), FIXED])
    unknown = [kind for kind in kinds if kind not in known]
    if unknown:
        raise WrongWords(f"no kind to be held hard: {', '.join(map(shown, unknown))}; there are {', '.join(map(shown, known))}")
    activities = {Member(Of.ACTIVITY, number) for number in bench.network.activities if labels.kind(number) in kinds}
    events = {Member(Of.EVENT, event) for event in bench.network.windows} if FIXED in kinds else set()
    return frozenset(activities | events)


class Finding:
    """The search for a conflict, with one probe; members that are hard by default may change if nothing else is in it."""

    def __init__(self, probe: Probe, hard: frozenset[Member], is_usual: bool, nodes: int, seconds: float, lower: bool) -> None:
        self.probe, self.hard, self.is_usual, self.nodes, self.seconds, self.lower = probe, hard, is_usual, nodes, seconds, lower

    def answer(self) -> Why:
        """A timetable, a conflict, or neither if none was found in time."""
        if self._is_seen_by_domains():
            return self._conflict(self._least(list(self.probe.members), self._by_domains))
        nodes, until = FIRST_NODES, time.monotonic() + self.seconds
        while True:
            try:
                verdict, times = self.probe.search(self.probe.members, nodes)
            except GivenUp:
                if nodes == FIRST_NODES:
                    raise
                return Undecided(nodes // MORE)
            if verdict is Verdict.POSSIBLE:
                return Possible(times)
            if verdict is Verdict.INFEASIBLE:
                self.nodes = max(self.nodes, nodes)
                return self._conflict(self._least(list(self.probe.members), self._by_search))
            if time.monotonic() > until:
                return Undecided(nodes)
            nodes *= MORE

    def _is_seen_by_domains(self) -> bool:
        """Whether a domain is empty, with some event of each free part held; that event is held first from then on."""
        until = time.monotonic() + self.seconds
        for event in (None, *self.probe.events):
            self.probe.preferred = event
            if self._by_domains(list(self.probe.members)):
                return True
            if time.monotonic() > until:
                break
        self.probe.preferred = None
        return False

    def _by_domains(self, members: Sequence[Member]) -> bool:
        return self.probe.by_domains(self._kept(members)) is Verdict.INFEASIBLE

    def _by_search(self, members: Sequence[Member]) -> bool:
        return self.probe.by_search(self._kept(members), self.nodes) is Verdict.INFEASIBLE

    def _kept(self, members: Sequence[Member]) -> Kept:
        return {member: self.probe.members[member] for member in members}

    def _least(self, members: list[Member], test: Test) -> list[Member]:
        """The minimal set by a test: with as few members as possible that may change, and then as few of the hard ones."""
        hard = [member for member in members if member in self.hard]
        soft = [member for member in members if member not in self.hard]
        needed = least(soft, hard, test)
        return needed + least(hard, needed, test)

    def _conflict(self, members: list[Member]) -> Conflict:
        """The answer for a set; searches see more than domains, so some of its members may turn out to be unnecessary."""
        found = settled(members, self._by_search)
        kept = {member: bounds for member, bounds in self.probe.members.items() if member in found}
        without = {member: self.probe.by_search({each: kept[each] for each in kept if each != member}, self.nodes) for member in kept}
        shape = shape_of(kept, self.probe.activities, self.probe.period)
        mending = Mending(self.probe, kept, shape, self.nodes, self.lower)
        hard = frozenset() if self.is_usual and self.hard >= set(kept) else self.hard & set(kept)
        mends = mending.mends([member for member in kept if member not in hard], time.monotonic() + self.seconds)
        return Conflict(kept, hard, self.nodes, without, shape, mends)
