"""Queries a bench about sets of members: whatever is not in a set is released, and one event of each free part is held at 0.

The activities of the set divide the events into parts. A part without a window can be shifted as a whole, since its connections to
others are released, so holding one of its events at 0 excludes no timetable that cannot be shifted into an admitted one.
"""

from __future__ import annotations

from collections import Counter
from typing import Optional

from pespbench.answers import Domain, Infeasible, Optimum, Stopped
from pespbench.client import Bench
from pespbench.commands import GREATEST_BOUND
from pespbench.faults import PespbenchError
from pespbench.network import Window, parts_of, window_command
from pespbench.session import Outcome
from pespbench.why.members import Bounds, Held, Kept, Member, Of, Span, Verdict, members_of

Timetable = dict[int, int]


class Probe:
    """A bench for questions about sets, which changes it: its weights are 0 from the start."""

    def __init__(self, bench: Bench) -> None:
        network = bench.network
        self.bench, self.period, self.events = bench, network.period, network.events
        self.members = members_of(network)
        self.activities = dict(network.activities)
        self.ends = {number: (each.from_event, each.to_event) for number, each in network.activities.items()}
        # The present spans and windows of the bench, and the events without an activity of the last set.
        self.spans = {number: Span(each.lower, each.upper) for number, each in network.activities.items()}
        self.held = {event: window for event, window in network.windows.items() if window}
        self.alone: set[int] = set()
        # The event that is held in preference to others of its part.
        self.preferred: Optional[int] = None
        self.known: dict[tuple[frozenset[tuple[Member, Bounds]], int], Verdict] = {}
        self.roots = sorted({min(part) for part in parts_of(self.events, self.ends.values())})
        # With all weights 0 a search ends with the first timetable.
        self._send([f"weight {number} 0" for number, each in network.activities.items() if each.weight])

    def by_domains(self, kept: Kept) -> Verdict:
        """Whether a domain is empty with only the set: then it is infeasible, and otherwise undecided."""
        answers = self._ask(kept, [f"domain {root}" for root in self.roots], is_all_held=False)
        is_empty = any(isinstance(answer, Domain) and not answer.residues for answer in answers)
        return Verdict.INFEASIBLE if is_empty else Verdict.UNDECIDED

    def by_search(self, kept: Kept, nodes: int) -> Verdict:
        """The result of a search with this many nodes of only the set; the same set is not searched again."""
        asked = frozenset(kept.items()), nodes
        if asked not in self.known:
            self.known[asked] = self.search(kept, nodes)[0]
        return self.known[asked]

    def search(self, kept: Kept, nodes: int) -> tuple[Verdict, Timetable]:
        """The result of a search with this many nodes of only the set, and its timetable, if it found one."""
        [answer] = self._ask(kept, [f"try {nodes}"], is_all_held=True)
        if isinstance(answer, Infeasible):
            return Verdict.INFEASIBLE, {}
        if isinstance(answer, Optimum) or (isinstance(answer, Stopped) and answer.cost is not None):
            return Verdict.POSSIBLE, dict(answer.times)
        return Verdict.UNDECIDED, {}

    def _ask(self, kept: Kept, questions: list[str], is_all_held: bool) -> list[Outcome]:
        """The answers to questions about only the set; events without an activity of it are held if all are."""
        spans = {number: self._span(kept, number) for number in self.spans}
        changed = [number for number, span in spans.items() if span != self.spans[number]]
        held, alone = self._wanted(kept, is_all_held)
        # Spans are changed while domains are full, since each change costs the minutes that it removes or restores: so
        # held events are released first and held again last, except for those without activities before and after.
        same = {event for event, window in self.held.items() if held.get(event) == window}
        if changed:
            same &= self.alone & alone
        commands = [f"unfix {event}" for event in self.held if event not in same]
        commands += [f"span {number} {spans[number].lower} {spans[number].upper}" for number in changed]
        commands += [window_command(event, window) for event, window in held.items() if event not in same]
        self.spans, self.held, self.alone = spans, held, alone
        return self._send([*commands, *questions])[len(commands) :]

    def _span(self, kept: Kept, number: int) -> Span:
        """The span of an activity in a set; if it is not in it, one that every pair of times meets."""
        bounds = kept.get(Member(Of.ACTIVITY, number))
        # Near the present one, so that few domains change.
        lower = min(self.spans[number].lower, GREATEST_BOUND - self.period + 1)
        return bounds if isinstance(bounds, Span) else Span(lower, lower + self.period - 1)

    def _wanted(self, kept: Kept, is_all_held: bool) -> tuple[dict[int, Window], set[int]]:
        """The windows of the set with one held event for each part that has none, and the events without an activity."""
        binding = {member: bounds for member, bounds in kept.items() if bounds.is_binding(self.period)}
        wanted = {member.number: Window(each.first, each.length) for member, each in binding.items() if isinstance(each, Held)}
        joins = [self.ends[member.number] for member in binding if member.of is Of.ACTIVITY]
        degrees = Counter(event for ends in joins for event in ends)
        for part in parts_of(self.events, joins):
            held = max(part, key=lambda event: (event == self.preferred, degrees[event], -event))
            if (is_all_held or degrees[held]) and wanted.keys().isdisjoint(part):
                wanted[held] = Window(0)
        return wanted, {event for event in self.events if not degrees[event]}

    def _send(self, commands: list[str]) -> list[Outcome]:
        """The answers to commands, none of which may be refused."""
        answers = self.bench.many(commands)
        for answer in answers:
            if isinstance(answer, PespbenchError):
                raise answer
        return answers
