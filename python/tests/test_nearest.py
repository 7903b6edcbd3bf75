"""The nearest timetable: compared with all timetables of small networks, without changes to the bench."""

from __future__ import annotations

import gc
import random
import time
import unittest
from typing import Dict, List, Mapping, Optional, Tuple, Union
from unittest import mock

from pespbench import BadReply, Bench, Mended, Near, Network, mended
from pespbench.answers import Violations
from pespbench.faults import WrongWords
from pespbench.near import Wish, WithMoves
from tests.common import SLOWER, SOON, Case, Whole, drawn_script, over_both
from tests.test_prices import state_of
from tests.test_progress import interrupt_when
from tests.timetables import Timetable, apart, small_script, timetables

Most = Union[None, int, Dict[int, int]]


def opened(case: Case, seed: int) -> Tuple[Bench, random.Random]:
    """A random network."""
    draw = random.Random(seed)
    period = draw.choice([5, 6, 7])
    bench = Bench.from_script("\n".join(small_script(draw, period)), period=period, **case.how)
    case.addCleanup(bench.close)
    return bench, draw


@over_both
class Equal(Case):
    """On random networks."""

    def test_nearest(self) -> None:
        """The fewest minutes, and of those the least cost, with all options."""
        for seed in range(max(3, 60 // SLOWER)):
            bench, draw = opened(self, seed)
            events, period = bench.network.events, bench.period
            times = {event: draw.randrange(period) for event in draw.sample(events, draw.randrange(1, len(events) + 1))}
            held = {event: draw.randrange(period) for event in events if bench.network.windows[event] is None and draw.random() < 0.2}
            most: Most = draw.choice([None, None, 1, 2, {event: draw.randrange(3) for event in times}])
            weights = {event: draw.randrange(4) for event in events if draw.random() < 0.3}
            before = state_of(bench)
            near = bench.near(times, held=held, most=most, weights=weights).found()
            wanted = self.least(bench.network, {**times, **held}, held, most, weights)
            self.assertEqual(((near.minutes, near.cost), near.is_proved, state_of(bench)), (wanted, True, before), seed)
            self.check(bench, near, {**times, **held})
            bench.close()

    def least(self, network: Network, times: Timetable, held: Timetable, most: Most, weights: Mapping[int, int]) -> Tuple[Optional[int], Optional[int]]:
        """The minutes and the cost by definition."""
        far = {event: most if isinstance(most, int) else (most or {}).get(event, network.period) for event in times}
        found: List[Tuple[int, int]] = []
        for each, cost in timetables(network):
            moves = {event: apart(each[event], time, network.period) for event, time in times.items()}
            if all(move <= (0 if event in held else far[event]) for event, move in moves.items()):
                found.append((sum(weights.get(event, 1) * move for event, move in moves.items()), cost))
        return min(found, default=(None, None))

    def check(self, bench: Bench, near: Near, times: Timetable) -> None:
        """The reported values of the timetable are right."""
        if near.times:
            with bench.trial():
                bench.take(near)
                self.assertEqual((len(bench.violations()), bench.cost()), (0, near.cost))
            moved = {event: (times[event] + move) % bench.period for event, move in near.moves.items()}
            self.assertEqual(moved, {event: near.times[event] for event in times if near.times[event] != times[event]})
            self.assertTrue(all(-bench.period < 2 * move <= bench.period for move in near.moves.values()))

    def test_mended(self) -> None:
        """The smallest greatest move, then the fewest minutes, then the cost."""
        for seed in range(300, 300 + max(2, 10 // SLOWER)):
            bench, draw = opened(self, seed)
            period = bench.period
            bench.set_times({event: draw.randrange(period) for event in bench.network.events})
            before, found = state_of(bench), []
            for times, cost in timetables(bench.network):
                moves = [apart(times[event], minute, period) for event, minute in bench.times.items()]
                found.append((max(moves), sum(moves), cost))
            known = mended(bench)
            least = min(found, default=(None, None, None))
            self.assertEqual(((known.most, known.near.minutes, known.near.cost), state_of(bench)), (least, before), seed)
            self.assertEqual((known.is_least, known.near.is_proved, known.near.greatest), (bool(found), True, known.most or 0))
            bench.close()

    def test_great_costs(self) -> None:
        """If a minute cannot cost more than any timetable, moves still come first."""
        bench = Bench.from_script("add event 1\nadd event 2\nadd activity 1 1 2 0 9 1000000000\n", period=10, **self.how)
        self.addCleanup(bench.close)
        self.assertFalse(WithMoves(bench.network, Wish.of(bench.network, {}, {}, None, {})).is_exact)
        bench.add_activity(bench.network.activities[1].__class__(2, 2, 1, 0, 6, 5))
        near = bench.near({1: 0, 2: 3}).found()
        self.assertEqual((near.minutes, near.moves, near.cost), (1, {2: 1}, 4_000_000_030))
        self.assertEqual((near.lower_bound, near.times), (1, {1: 0, 2: 4}))

    def test_wrong_words(self) -> None:
        bench = self.two_trains()
        bench.window(1, 2, 3)
        near = {"of no event": ({3: 0}, {}, None, {}), "held nowhere": ({}, {3: 0}, None, {}), "above the period": ({1: 10}, {}, None, {}),
                "outside": ({}, {1: 5}, None, {}), "back": ({}, {}, -1, {}), "light": ({}, {}, None, {1: -1}),
                "heavy": ({}, {}, None, {1: 10**9 + 1}), "most of none": ({}, {}, {3: 1}, {})}  # fmt: skip
        for name, (times, held, most, weights) in near.items():
            with self.subTest(name), self.assertRaises(WrongWords):
                bench.near(times, held=held, most=most, weights=weights)  # type: ignore[arg-type]
        self.assertRaises(ValueError, bench.near, seconds=-1)
        self.assertRaises(TypeError, bench.near, {1: 2.0})
        self.assertEqual(bench.near({Whole(1): Whole(2)}, most=Whole(0)).found().times[1], 2)  # type: ignore[arg-type, dict-item]
        large = Network(60, dict.fromkeys(range(15_000)))
        self.assertRaisesRegex(WrongWords, "too large", WithMoves, large, Wish.of(large, dict.fromkeys(range(15_000), 0), {}, None, {}))

    def test_as_it_is(self) -> None:
        """Times that meet everything are returned without a search, and without times it is the cheapest timetable."""
        bench = self.two_trains()
        with mock.patch("pespbench.nearest.Search", side_effect=RuntimeError):
            self.assertEqual(bench.near({1: 0, 2: 5}).found(), Near({1: 0, 2: 5}, {}, 0, 5, 0, True))
        self.assertEqual((bench.near().found().cost, bench.times), (4, {}))
        near = bench.near({1: 0, 2: 5}, weights={2: 0}).found()
        self.assertEqual((near.minutes, near.cost, near.moves, near.is_proved), (0, 4, {2: -1}, True))
        bench.span(1, 3, 3)
        self.assertEqual((bench.near({1: 0, 2: 5}).found(), mended(bench)), (Near(is_proved=True), Mended(Near(is_proved=True))))


class Unchanged(Case):
    """Its ends, and results that it does not accept."""

    def large(self) -> Bench:
        """A network on which a search does not end soon."""
        bench = Bench.from_script("\n".join(drawn_script(11, 100, 320, room=20)), **self.how)
        self.addCleanup(bench.close)
        draw = random.Random(1)
        bench.set_times({event: draw.randrange(60) for event in range(100)})
        return bench

    def test_out_of_time(self) -> None:
        bench = self.large()
        before, began = state_of(bench), time.monotonic()
        told: List[Near] = []
        near = bench.near(seconds=1, watch=told.append).found()
        self.assertLess(time.monotonic() - began, SOON)
        self.assertEqual((near.is_proved, told[-1], state_of(bench)), (False, near, before))
        known = mended(bench, seconds=1)
        self.assertEqual((known.near.is_proved, known.is_least, state_of(bench)), (False, False, before))

    def test_the_caller_stops(self) -> None:
        bench = self.large()
        before = state_of(bench)
        for _ in bench.near(seconds=60, nodes=10):
            break
        gc.collect()
        self.assertEqual(state_of(bench), before)
        nearest = bench.near(seconds=60, nodes=10)
        next(nearest)
        bench.fix(1, 3)
        self.assertRaises(ValueError, next, nearest)
        self.assertEqual(bench.undo(), ["fix 1 3"])

    def test_interrupt(self) -> None:
        """The result until Ctrl-C is kept, and the bench still has its program."""
        bench = self.large()
        before, nearest, transport = state_of(bench), bench.near(seconds=600, nodes=10), bench._session._transport
        steps: List[Near] = []
        nearest._watch = steps.append
        interrupt_when(lambda: bool(steps))
        self.assertRaises(KeyboardInterrupt, nearest.found)
        self.assertEqual((nearest.near, state_of(bench), bench._session._transport), (steps[-1], before, transport))
        self.assertEqual(bench.undo()[0].split()[0], "time")

    def test_a_timetable_that_violates(self) -> None:
        """It is rejected, whatever the engine says."""
        bench = self.two_trains()
        before = state_of(bench)
        with mock.patch.object(bench, "violations", return_value=Violations((1,), ())):
            self.assertRaises(BadReply, bench.near({1: 0, 2: 0}).found)
        self.assertEqual(state_of(bench), before)


if __name__ == "__main__":
    unittest.main()
