"""Why: each reported set is infeasible by the program, and none of its members can be omitted."""

from __future__ import annotations

import random
import unittest
from dataclasses import replace
from typing import Mapping

from pespbench import Activity, Bench, Found, Infeasible, Network, Optimum, Window
from pespbench.drawn import draw_region
from pespbench.why import Conflict, Member, Mend, Of, Possible, Span, Undecided, Verdict, text_of, why
from pespbench.why.members import Bounds, Held
from pespbench.why.shapes import Circle
from pespbench.wording import Names
from tests.common import PROGRAM, SLOWER, Case, over_both

NETWORKS = 1_000 // SLOWER
# Long enough for an unproved program under Node, which takes a hundred times as long.
SECONDS = 1_000.0


def small_network(seed: int) -> Network:
    """A network of two to six events, which is usually infeasible; it may have loops and parallel activities."""
    draw = random.Random(seed)
    period, count = draw.randrange(4, 13), draw.randrange(2, 7)
    network = Network(period, {event: None for event in range(1, count + 1)})
    for event in network.windows:
        if draw.random() < 0.25:
            network.windows[event] = Window(draw.randrange(period), draw.choice([1, 1, 2, 3, period]))
    for number in range(1, draw.randrange(count, 2 * count + 3)):
        first, last = draw.randint(1, count), draw.randint(1, count)
        if first == last and draw.random() < 0.8:
            last = last % count + 1
        lower = draw.randrange(-3, 2 * period)
        upper = lower + draw.choice([0, 1, 1, 2, 3, period - 2, period])
        network.activities[number] = Activity(number, first, last, lower, upper, draw.randrange(4))
    return network


def with_members(network: Network, members: Mapping[Member, Bounds]) -> Network:
    """The network with only these spans and windows, on all events."""
    made = Network(network.period, dict.fromkeys(network.windows))
    for member, bounds in members.items():
        if isinstance(bounds, Held):
            made.windows[member.number] = Window(bounds.first, bounds.length)
        else:
            activity = network.activities[member.number]
            made.activities[member.number] = replace(activity, lower=bounds.lower, upper=bounds.upper, weight=0)
    return made


def without(members: Mapping[Member, Bounds], member: Member) -> dict[Member, Bounds]:
    """The members without one."""
    return {each: bounds for each, bounds in members.items() if each != member}


class Small(Case):
    """Random networks so small that the program decides each question about them."""

    def setUp(self) -> None:
        super().setUp()
        self.benches: dict[tuple[int, str], Bench] = {}

    def bench(self, period: int, use: str) -> Bench:
        """A bench without events at a period, in a context."""
        if (period, use) not in self.benches:
            self.benches[period, use] = Bench.open(None, period=period, program=PROGRAM)
            self.addCleanup(self.benches[period, use].close)
        return self.benches[period, use]

    def decided(self, network: Network) -> Found:
        """The program's answer on a network."""
        bench = self.bench(network.period, "check")
        with bench.trial():
            found = bench.many([*network.script(), "optimum"])[-1]
        assert isinstance(found, (Infeasible, Optimum))
        return found

    def test_drawn_networks(self) -> None:
        told = {Possible: 0, Conflict: 0}
        for seed in range(NETWORKS):
            network = small_network(seed)
            bench = self.bench(network.period, "why")
            with self.subTest(seed=seed), bench.trial():
                bench.many(network.script())
                script = bench.dump()
                answer = why(bench, lower=seed % 2 == 1)
                self.assertEqual(bench.dump(), script)
                assert not isinstance(answer, Undecided)
                told[type(answer)] += 1
                if isinstance(answer, Possible):
                    self.check_times(network, answer.times)
                else:
                    self.check_conflict(network, answer, seed % 2 == 1)
        self.assertGreater(min(told.values()), NETWORKS // 5)

    def check_times(self, network: Network, times: dict[int, int]) -> None:
        """A timetable keeps each window and meets each activity."""
        for event, window in network.windows.items():
            self.assertTrue(window is None or window.holds(network.period, times[event]))
        for activity in network.activities.values():
            self.assertLessEqual(activity.slack(network.period, times), activity.upper - activity.lower)

    def check_conflict(self, network: Network, conflict: Conflict, lower: bool) -> None:
        """The program finds the set infeasible, and a timetable without any one member."""
        for member, bounds in conflict.members.items():
            self.assertEqual(bounds, bounds_in(network, member))
        self.assertIsInstance(self.decided(with_members(network, conflict.members)), Infeasible)
        self.assertTrue(conflict.is_least)
        for member in conflict.members:
            self.assertIsInstance(self.decided(with_members(network, without(conflict.members, member))), Optimum)
        for mend in conflict.mends:
            self.check_mend(network, conflict, mend, lower)
        self.assertEqual({mend.member for mend in conflict.mends}, set(conflict.members))
        if isinstance(conflict.shape, Circle):
            self.assertFalse(any(each % network.period == 0 for each in range(conflict.shape.least, conflict.shape.most + 1)))

    def check_mend(self, network: Network, conflict: Conflict, mend: Mend, lower: bool) -> None:
        """A repair works, one with a minute less does not, the statement on the whole network is right, and minimum minutes stay."""
        self.assertFalse(mend.is_less and not lower)
        self.assertIsInstance(self.decided(with_members(network, {**conflict.members, mend.member: mend.after})), Optimum)
        for is_later in (True, False) if lower or mend.member.of is Of.EVENT else (True,):
            count = mend.minutes - 1
            if not is_later and isinstance(mend.before, Span) and mend.before.lower >= 0:
                count = min(count, mend.before.lower)
            less = {**conflict.members, mend.member: mend.before.widened(count, is_later)}
            self.assertIsInstance(self.decided(with_members(network, less)), Infeasible)
        every = {member: bounds_in(network, member) for member in all_members(network)}
        found = self.decided(with_members(network, {**every, mend.member: mend.after}))
        self.assertIs(mend.whole, Verdict.POSSIBLE if isinstance(found, Optimum) else Verdict.INFEASIBLE)


def bounds_in(network: Network, member: Member) -> Bounds:
    """The span or window of a member."""
    if member.of is Of.ACTIVITY:
        return Span(network.activities[member.number].lower, network.activities[member.number].upper)
    window = network.windows[member.number]
    assert window is not None
    return Held(window.first, window.length, network.period)


def all_members(network: Network) -> list[Member]:
    """All activities and windows."""
    held = [event for event, window in network.windows.items() if window is not None]
    return [Member(Of.ACTIVITY, number) for number in network.activities] + [Member(Of.EVENT, event) for event in held]


@over_both
class Told(Case):
    """Answers in words."""

    def told(
        self, commands: list[str], period: int, hard: tuple[str, ...] | None = (), kinds: dict[int, str] | None = None, lower: bool = False
    ) -> str:
        """The text on a network with few labels."""
        with Bench.from_script("\n".join(commands), period=period, **self.how) as bench:
            bench.labels.activities.update(kinds or {})
            return text_of(why(bench, hard, lower=lower), Names(bench.labels, bench.network.activities))

    def test_circle(self) -> None:
        commands = ["add event 1", "add event 2", "add activity 1 1 2 3 3 0", "add activity 2 2 1 4 6 0"]
        text = self.told(commands, 10)
        self.assertIn("they take 7 to 9 minutes, and have to take 0 or 10: a whole number of periods", text)
        self.assertIn("  1 minute more  anywhere on it, such as activity 1 from event 1 to event 2  3 to 4 minutes in place of 3\n", text)
        self.assertEqual(text.count("in place of"), 1)

    def test_circle_with_kinds(self) -> None:
        """A turnaround is named before a change and others; an activity in the opposite direction has a line of its own."""
        commands = [f"add event {event}" for event in (1, 2, 3, 4)]
        commands += ["add activity 1 1 2 3 3 0", "add activity 2 2 3 4 6 0", "add activity 3 3 4 3 4 0", "add activity 4 1 4 2 3 0"]
        kinds = {1: "run", 2: "change", 3: "turnaround", 4: "dwell"}
        anywhere, turn = "2 minutes more  anywhere on it that is not hard, such as ", "turnaround 3 from event 3 to event 4  3 to 6 minutes in place of 3 to 4\n"
        usual, free = self.told(commands, 13, None, kinds), self.told(commands, 13, (), kinds)
        self.assertIn(f"  {anywhere}{turn}", usual)
        self.assertEqual([usual.count("in place of"), free.count("in place of"), usual.count("hard)")], [1, 2, 2])
        self.assertIn("2 minutes more  anywhere on it, such as turnaround 3 ", free)
        self.assertRegex(free, r"\d+ minutes more  dwell 4 from event 1 to event 4 ")
        one = self.told(commands, 13, ("run", "change"), kinds)
        self.assertIn(f"  2 minutes more  {turn}", one)

    def test_just_what_is_usually_kept(self) -> None:
        """Runs and dwells can be changed if nothing else is in the conflict, unless that is excluded."""
        commands = ["add event 1", "add event 2", "add activity 1 1 2 3 3 0", "add activity 2 2 1 4 6 0"]
        kinds = {1: "run", 2: "dwell"}
        self.assertIn("1 minute more  anywhere on it, such as run 1 ", self.told(commands, 10, None, kinds))
        self.assertIn("No member that may be changed", self.told(commands, 10, ("run", "dwell"), kinds))

    def test_mends_that_leave_another_conflict(self) -> None:
        """If some members of a circle repair the whole network and some do not, each has a line of its own."""
        commands = ["add event 1", "add event 2", "add activity 1 1 2 3 3 0", "add activity 2 2 1 4 6 0", "add activity 3 2 1 6 6 0"]
        text = self.told(commands, 10, (), {2: "turnaround"})
        self.assertNotIn("anywhere", text)
        self.assertEqual(text.count("in place of"), 2)

    def test_lowered(self) -> None:
        """Minimum minutes are lowered on request, and the text then says less."""
        commands = ["add event 1", "add event 2", "add activity 1 1 2 5 5 0", "add activity 2 2 1 7 7 0"]
        kept, lowered = self.told(commands, 10), self.told(commands, 10, lower=True)
        self.assertIn("8 minutes more  anywhere on it, such as activity 1 from event 1 to event 2  5 to 13 minutes in place of 5\n", kept)
        self.assertIn("2 minutes less  activity 1 from event 1 to event 2  3 to 5 minutes in place of 5\n", lowered)
        self.assertEqual([kept.count(" less  "), lowered.count(" more  ")], [0, 0])
        both = self.told(["add event 1", "add event 2", "add activity 1 1 2 1 1 0", "add activity 2 2 1 4 5 0"], 10, lower=True)
        self.assertIn("4 minutes more  anywhere on it, such as activity 1 from event 1 to event 2  1 to 5 minutes in place of 1\n", both)

    def test_way(self) -> None:
        commands = ["add event 1", "add event 2", "add activity 1 1 2 3 4 0", "fix 1 9", "window 2 5 2"]
        text = self.told(commands, 10)
        self.assertIn("On this way from one held event to the other they take 3 to 4 minutes, and have to take 6 to 7.", text)
        self.assertIn("2 minutes more  event 1                             from :09 to :01 in place of at :09\n", text)
        self.assertIn("2 minutes more  activity 1 from event 1 to event 2  3 to 6 minutes in place of 3 to 4\n", text)

    def test_hard_kinds(self) -> None:
        commands = ["add event 1", "add event 2", "add activity 1 1 2 3 3 0", "add activity 2 2 1 4 6 0"]
        text = self.told(commands, 10, ("run",), {1: "run", 2: "turnaround"})
        self.assertIn("run 1 from event 1 to event 2         3 minutes (hard)\n", text)
        self.assertEqual(text.count("in place of"), 1)
        both = self.told(commands, 10, ("run", "turnaround"), {1: "run", 2: "turnaround"})
        self.assertIn("No member that may be changed is seen to mend it alone.", both)

    def test_loop(self) -> None:
        text = self.told(["add event 1", "add activity 7 1 1 1 2 0"], 10)
        self.assertIn("This cannot be met:", text)
        self.assertIn("they take 1 to 2 minutes, and have to take 0 or 10", text)

    def test_nothing(self) -> None:
        self.assertIn("A timetable meets everything", self.told(["add event 1"], 10))

    def test_bad_numbers(self) -> None:
        with Bench.open(None, **self.how) as bench:
            self.assertRaises(ValueError, why, bench, (), 0)
            self.assertRaises(ValueError, why, bench, (), 1, 0.0)


class Regions(Case):
    """A region of the size of a planner's."""

    def test_infeasible_region(self) -> None:
        region = draw_region(3, feasible=False)
        region.save(self.folder)
        with Bench.open(self.folder / "activities", labels=self.folder / "labels", program=PROGRAM) as bench:
            answer = why(bench, ("run", "dwell", "headway"), seconds=SECONDS)
            assert isinstance(answer, Conflict)
            self.assertTrue(answer.is_least)
            self.assertTrue(answer.mends)
            soft = {mend.member for mend in answer.mends}
            self.assertTrue(all(bench.labels.kind(member.number) in ("change", "turnaround") for member in soft))


if __name__ == "__main__":
    unittest.main()
