"""Many times set in one call, and one by one: results, refusals and undo."""

from __future__ import annotations

import random
import unittest
from typing import List, Tuple
from unittest import mock

from pespbench import Bench, Ended, Fault, Refused
from tests.common import EXAMPLES, Case, Whole, over_both


def cost_of(bench: Bench) -> int:
    """The cost by its definition."""
    return sum(each.weight * each.slack(bench.period, bench.times) for each in bench.network.activities.values())


@over_both
class Moves(Case):
    """`moves`, and equivalent calls."""

    def drawn_moves(self, seed: int, count: int, events: int = 12) -> List[Tuple[int, int]]:
        draw = random.Random(seed)
        return [(draw.randrange(events), draw.randrange(60)) for _ in range(count)]

    def test_costs(self) -> None:
        bench = self.two_trains(times=EXAMPLES / "two-trains/times")
        self.assertEqual(bench.moves([(1, 1), (2, 4), (2, 3), (1, 0)]), [22, 3, 22, 3])
        self.assertEqual(bench.journal, ["time 1 1", "time 2 4", "time 2 3", "time 1 0"])
        self.assertEqual([bench.undo() for _ in range(2)], [["time 1 0"], ["time 2 3"]])
        self.assertEqual((bench.times, bench.cost(), bench.moves([])), ({1: 1, 2: 4}, 3, []))
        self.assertEqual(bench.moves((event, 5) for event in (1, 2)), [19, 20])

    def test_as_one_by_one(self) -> None:
        """By `time` and `cost`, by their lines, and by the definition."""
        with self.drawn(5, 12, 30) as bench:
            bench.set_times({event: event for event in range(12)})
            moves = self.drawn_moves(5, 300)
            with bench.trial():
                lines = [line for event, time in moves for line in (f"time {event} {time}", "cost")]
                wanted = bench.many(lines)[1::2]
            one_by_one = []
            with bench.trial():
                for event, time in moves:
                    bench.time(event, time)
                    one_by_one.append(bench.cost())
            with mock.patch("pespbench.session.BATCH", 70):
                self.assertEqual(bench.moves(moves), wanted)
            self.assertEqual((one_by_one, wanted[-1], bench.cost()), (wanted, cost_of(bench), cost_of(bench)))
            self.assertEqual(len(bench.journal), 300 + 12)

    def test_refusals(self) -> None:
        """Each is in its place, and the others are made; the last is one of the cost, after an accepted move."""
        bench = self.two_trains()
        came = bench.moves([(1, 0), (7, 0), (2, 10), (-1, 0), (2, 4), (2, 99), (2, 3)])
        self.assertEqual([each.number for each in came if isinstance(each, Refused)], [11, 2, 4, 4])
        self.assertIsInstance(came[3], Fault)
        self.assertEqual((came[4], came[6], bench.times), (4, 3, {1: 0, 2: 3}))
        self.assertEqual(bench.journal, ["time 1 0", "time 2 4", "time 2 3"])

    def test_no_whole_numbers(self) -> None:
        bench = self.two_trains()
        for wrong in [(1, 0.0), ("1", 0), (1, None), (1,), 1]:
            with self.assertRaises((TypeError, ValueError)):
                bench.moves([(1, 0), wrong])  # type: ignore[list-item]
        self.assertEqual((bench.times, bench.journal), ({}, []))
        with self.assertRaises(Ended) as told:
            bench.moves([(10**3_000, 10**3_000)])
        self.assertIn("is longer than 4096 bytes", str(told.exception))
        bench.moves([(Whole(1), Whole(4))])  # type: ignore[list-item]
        self.assertEqual(bench.times, {1: 4})

    def test_one_by_one(self) -> None:
        """Values that are not plain integers are sent as lines, and refusals too."""
        bench = self.two_trains()
        bench.time(1, 0)
        bench.time(True, 0)
        for event, time in [(1, -1), (-1, 1)]:
            self.assertRaises(Fault, bench.time, event, time)
        for wrong in (1.0, None, "one", "2", "1 0\ntime 2", "1 " + "0" * 5_000):
            self.assertRaises(TypeError, bench.time, wrong, 0)
        for event, time in [(7, 0), (1, 10)]:
            self.assertRaises(Refused, bench.time, event, time)
        bench.time(Whole(2), 4)  # type: ignore[arg-type]
        self.assertEqual((bench.times, bench.cost()), ({1: 0, 2: 4}, 4))
        bench.untime(1)
        with self.assertRaises(Refused) as told:
            bench.cost()
        self.assertEqual((told.exception.number, told.exception.event, str(told.exception)), (11, 1, "refused 11 event 1 has no time"))

    def test_after_the_end(self) -> None:
        """In a reopened session."""
        bench = self.two_trains(times=EXAMPLES / "two-trains/times")
        for _ in range(2):
            bench._session.drop()
            bench.time(2, 4)
            bench._session.drop()
            self.assertEqual(bench.cost(), 4)
            bench._session.drop()
            self.assertEqual(bench.moves([(2, 5), (2, 4)]), [5, 4])


if __name__ == "__main__":
    unittest.main()
