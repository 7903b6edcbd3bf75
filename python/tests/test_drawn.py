"""The random region: the same for the same seed, of the expected size, and feasible or not as requested."""

from __future__ import annotations

import contextlib
import io
import unittest

from pespbench import Bench, EventLabel, Labels
from pespbench.__main__ import main
from pespbench.drawn import Region, draw_region
from pespbench.drawn.circles import Tree, reach
from pespbench.report import read_places
from tests.common import PROGRAM, Case

SEEDS = range(1, 25)
# The start of the region of seed 7, on every machine.
FIRST_TIMES = [49, 0, 1, 13, 15, 28]
FIRST_SPANS = [(11, 12, 136), (1, 2, 102), (12, 14, 101)]


def missed(region: Region) -> list[int]:
    """The activities that the hidden timetable does not meet."""
    times = region.times
    slacks = {each.number: (times[each.last] - times[each.first] - each.lower) % 60 for each in region.activities}
    return [each.number for each in region.activities if slacks[each.number] > each.width]


class Drawn(Case):
    """Regions of many seeds."""

    def test_sizes(self) -> None:
        for seed in SEEDS:
            region = draw_region(seed)
            with self.subTest(seed=seed):
                self.assertTrue(100 <= len(region.events) <= 120)
                self.assertTrue(30 <= region.circles <= 35)
                self.assertTrue(region.is_connected())
                self.assertEqual(len({event.line for event in region.events}), 6)
                self.assertEqual({each.kind for each in region.activities}, {"run", "dwell", "turnaround", "change", "headway"})
                self.assertEqual(missed(region), [])
                widths = [each.width for each in region.activities if each.kind == "change"]
                self.assertTrue(10 <= min(widths) and max(widths) <= 35)

    def test_lines(self) -> None:
        """More lines, with events and circles in proportion."""
        for lines in (3, 4, 11, 24):
            region = draw_region(5, lines=lines)
            self.assertEqual((len({event.line for event in region.events}), missed(region), region.is_connected()), (lines, [], True))
            self.assertTrue(100 * lines // 6 <= len(region.events) <= 120 * lines // 6 and 5 * lines <= region.circles <= 35 * lines // 6)
        for wrong in (2, 25, -1):
            self.assertRaises(ValueError, draw_region, 5, lines=wrong)

    def test_infeasible(self) -> None:
        for seed in SEEDS:
            region = draw_region(seed, feasible=False)
            with self.subTest(seed=seed):
                self.assertEqual(len(missed(region)), 1)
                spans = [reach(circle) for circle in Tree(region.activities).circles()]
                closed = [any(minute % 60 == 0 for minute in range(least, most + 1)) for least, most in spans]
                self.assertFalse(all(closed))

    def test_same_again(self) -> None:
        self.assertEqual(draw_region(7), draw_region(7))
        self.assertNotEqual(draw_region(7).activities, draw_region(8).activities)
        # The numbers are Python's first ones of the seed, which stay the same from release to release.
        first = draw_region(7)
        self.assertEqual([event.time for event in first.events[:6]], FIRST_TIMES)
        self.assertEqual([(each.lower, each.upper, each.weight) for each in first.activities[:3]], FIRST_SPANS)

    def test_wide_changes(self) -> None:
        region = draw_region(2, change_widths=(55, 63))
        self.assertTrue(all(55 <= each.width <= 63 for each in region.activities if each.kind == "change"))

    def test_saved(self) -> None:
        region = draw_region(5)
        region.save(self.folder)
        labels = Labels.read(self.folder / "labels")
        event = region.events[0]
        self.assertEqual(labels.events[event.number], EventLabel(event.line, event.to, event.station, event.kind))
        self.assertEqual({number: labels.kind(number) for number in labels.activities},
                         {each.number: each.kind for each in region.activities})  # fmt: skip
        self.assertEqual(read_places(self.folder / "places"), {name: tuple(place) for name, place in region.places.places.items()})
        with Bench.open(self.folder / "activities", times=self.folder / "times", program=PROGRAM) as bench:
            self.assertEqual(len(bench.violations()), 0)
            self.assertEqual(bench.times, region.times)


class Drawing(Case):
    """The subcommand `draw`."""

    def test_folder(self) -> None:
        folder = self.folder / "region"
        (self.folder / "region").mkdir()
        (folder / "fixed").write_text("event; time\n1; 1\n")
        self.assertEqual(main(["draw", "5", str(folder)]), 0)
        region = draw_region(5)
        with Bench.load(folder, program=PROGRAM) as bench:
            self.assertEqual((bench.period, bench.times, len(bench.violations())), (60, region.times, 0))
            self.assertEqual(set(bench.network.windows.values()), {None})
            self.assertEqual(bench.places, region.places.places)
            self.assertEqual(bench.labels.kind(1), region.activities[0].kind)
        before = {path.name: path.read_bytes() for path in folder.iterdir()}
        self.assertEqual(main(["draw", "5", str(folder)]), 0)
        self.assertEqual({path.name: path.read_bytes() for path in folder.iterdir()}, before)

    def test_infeasible(self) -> None:
        self.assertEqual(main(["draw", "5", str(self.folder), "--infeasible"]), 0)
        with Bench.load(self.folder, program=PROGRAM) as bench:
            self.assertEqual(len(bench.violations()), 1)

    def test_wrong_words(self) -> None:
        table: list[list[str]] = [["x", "a"], ["5"], []]
        for words in table:
            with contextlib.redirect_stderr(io.StringIO()), self.assertRaises(SystemExit) as caught:
                main(["draw", *words])
            self.assertEqual(caught.exception.code, 2)
        with contextlib.redirect_stderr(io.StringIO()) as told:
            self.assertEqual(main(["draw", "5", str(self.folder / "none"), "--lines", "2"]), 2)
        self.assertEqual((told.getvalue(), (self.folder / "none").exists()), ("pespbench: a region has 3 to 24 lines\n", False))

    def test_lines_of_the_command(self) -> None:
        self.assertEqual(main(["draw", "5", str(self.folder), "--lines", "8"]), 0)
        with Bench.load(self.folder, program=PROGRAM) as bench:
            self.assertEqual(len({label.line for label in bench.labels.events.values()}), 8)

    def test_region_is_loaded(self) -> None:
        draw_region(3).save(self.folder)
        with Bench.load(self.folder, program=PROGRAM) as bench:
            self.assertEqual(bench.period, 60)


if __name__ == "__main__":
    unittest.main()
