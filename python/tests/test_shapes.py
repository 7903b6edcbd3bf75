"""Minimal sets, and circles and paths among them, without a program."""

from __future__ import annotations

import itertools
import random
import unittest
from typing import Sequence

from pespbench import Activity
from pespbench.why.members import Bounds, Held, Member, Of, Span
from pespbench.why.mending import least_number
from pespbench.why.shapes import Circle, Way, shape_of
from pespbench.why.shrinking import least, settled


def members(count: int) -> list[Member]:
    """This many activities."""
    return [Member(Of.ACTIVITY, number) for number in range(count)]


class Shrinking(unittest.TestCase):
    """A test by which a set is infeasible if it contains one of some given sets."""

    def test_drawn_sets(self) -> None:
        draw = random.Random(1)
        for _ in range(300):
            listed = members(draw.randint(1, 24))
            cores = [set(draw.sample(listed, draw.randint(1, len(listed)))) for _ in range(draw.randint(1, 3))]
            tests = 0

            def is_seen(kept: Sequence[Member]) -> bool:
                nonlocal tests
                tests += 1
                return any(core <= set(kept) for core in cores)

            found = least(listed, [], is_seen)
            self.assertIn(set(found), cores)
            self.assertFalse(any(core < set(found) for core in cores))
            self.assertEqual(set(settled(found, is_seen)), set(found))
            self.assertLess(tests, 3 * len(listed) + 60)

    def test_few_of_many(self) -> None:
        listed, core = members(1_000), {Member(Of.ACTIVITY, number) for number in (3, 500, 999)}
        tests = 0

        def is_seen(kept: Sequence[Member]) -> bool:
            nonlocal tests
            tests += 1
            return core <= set(kept)

        self.assertEqual(set(least(listed, [], is_seen)), core)
        self.assertLess(tests, 100)

    def test_background(self) -> None:
        listed = members(4)
        self.assertEqual(least(listed[1:], listed[:1], lambda kept: listed[0] in kept), [])
        self.assertEqual(least([], listed, lambda kept: True), [])

    def test_a_test_that_sees_less_in_more(self) -> None:
        # The test only sees the whole and single members; members that can be omitted one by one are dropped.
        listed = members(3)
        self.assertEqual(settled(listed, lambda kept: len(kept) in (1, 2)), [listed[2]])

    def test_least_number(self) -> None:
        for most, wanted, guess in itertools.product(range(1, 13), range(1, 15), range(1, 14)):
            tests: list[int] = []

            def holds(count: int) -> bool:
                tests.append(count)
                return count >= wanted

            self.assertEqual(least_number(most, holds, guess), wanted if wanted <= most else None)
            if guess == wanted <= most:
                self.assertLessEqual(len(tests), 2)


class Shapes(unittest.TestCase):
    """Circles and paths are found whatever the directions of their activities."""

    def shape(self, rows: list[tuple[int, int, int, int]], windows: dict[int, tuple[int, int]]) -> Circle | Way | None:
        """The shape of activities (first, last, lower, upper) and windows (first, length) at period 60."""
        activities = {number: Activity(number, *row) for number, row in enumerate(rows)}
        kept: dict[Member, Bounds] = {Member(Of.ACTIVITY, number): Span(row[2], row[3]) for number, row in enumerate(rows)}
        kept.update({Member(Of.EVENT, event): Held(*window, 60) for event, window in windows.items()})
        return shape_of(kept, activities, 60)

    def test_circle(self) -> None:
        circle = self.shape([(1, 2, 10, 12), (3, 2, 5, 6), (3, 1, 40, 41)], {})
        assert isinstance(circle, Circle)
        self.assertEqual([(step.activity.number, step.is_forward) for step in circle.steps], [(0, True), (1, False), (2, True)])
        self.assertEqual((circle.least, circle.most, circle.wanted), (44, 48, ((0, 0), (60, 60))))

    def test_turned_circle(self) -> None:
        circle = self.shape([(1, 2, 3, 4), (3, 2, 10, 12), (1, 3, 2, 2)], {})
        assert isinstance(circle, Circle)
        self.assertEqual([(step.activity.number, step.is_forward) for step in circle.steps], [(2, True), (1, True), (0, False)])
        self.assertEqual((circle.least, circle.most), (8, 11))
        even = self.shape([(1, 2, 3, 4), (3, 2, 5, 5), (1, 3, -2, -1)], {})
        assert isinstance(even, Circle)
        self.assertEqual(sum(step.is_forward for step in even.steps), 2)

    def test_two_between_the_same(self) -> None:
        circle = self.shape([(1, 2, 70, 71), (2, 1, 3, 4)], {})
        assert isinstance(circle, Circle)
        self.assertEqual((circle.least, circle.most, circle.wanted), (73, 75, ((60, 60), (120, 120))))

    def test_loop(self) -> None:
        circle = self.shape([(5, 5, 61, 70)], {})
        assert isinstance(circle, Circle)
        self.assertEqual(circle.wanted, ((60, 60), (120, 120)))

    def test_way(self) -> None:
        way = self.shape([(1, 2, 10, 12), (2, 3, 5, 6)], {1: (50, 2), 3: (20, 3)})
        assert isinstance(way, Way)
        # From 50 or 51 to 20, 21 or 22 of the next period it is 29 to 32.
        self.assertEqual((way.least, way.most, way.wanted), (15, 18, ((-31, -28), (29, 32))))

    def test_neither(self) -> None:
        self.assertIsNone(self.shape([(1, 2, 1, 1), (2, 3, 1, 1), (3, 1, 1, 1), (1, 3, 5, 5)], {}))
        self.assertIsNone(self.shape([(1, 2, 1, 1), (3, 4, 1, 1)], {}))
        self.assertIsNone(self.shape([(1, 2, 1, 1)], {1: (0, 1)}))
        self.assertIsNone(self.shape([(1, 2, 1, 1), (2, 3, 1, 1)], {1: (0, 1), 2: (5, 1)}))
        self.assertIsNone(self.shape([], {1: (0, 1), 2: (5, 1)}))
        self.assertIsNone(self.shape([(1, 2, 1, 1), (2, 1, 1, 1), (3, 4, 1, 1), (4, 3, 1, 1)], {}))


if __name__ == "__main__":
    unittest.main()
