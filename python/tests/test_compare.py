"""Two networks compared."""

from __future__ import annotations

import unittest

from pespbench import Activity, Bench, EventLabel, Labels
from pespbench.compare import Side, compare, compared, moved
from tests.common import EXAMPLES, PROGRAM, Case


class Compare(Case):
    """The text of a comparison."""

    def sides(self, commands: list[str], labels: Labels | None = None) -> str:
        """The hourly line compared with its state after commands."""
        folder = EXAMPLES / "hourly-line"
        with Bench.open(folder / "activities", times=folder / "times", labels=labels, program=PROGRAM) as bench:
            before = Side.of(bench)
            for command in commands:
                bench.ask(command)
            return compare(before, Side.of(bench))

    def test_nothing(self) -> None:
        text = self.sides([])
        self.assertEqual(text.count("  no change\n"), 2)
        self.assertIn("Violations\n  1 before, 1 after\n", text)

    def test_spans_times_and_cost(self) -> None:
        text = self.sides(["span 32 4 13", "weight 33 9", "time 8 27", "fix 1 3", "window 2 58 4", "drop activity 41"])
        self.assertIn("  activity 32 from event 8 to event 3: 4 to 13 minutes, was 4 to 10\n", text)
        self.assertIn("  activity 33 from event 2 to event 5: weight 9, was 8\n", text)
        self.assertIn("  activity 41 from event 3 to event 5: dropped\n", text)
        self.assertIn("  event 1: held at :03, was not held\n", text)
        self.assertIn("  event 2: held from :58 to :01, was not held\n", text)
        self.assertIn("Times\n  event 8: :18 to :27 (+9 minutes)\n\n", text)
        # Activity 22 takes 27 instead of 18 minutes, 32 takes 4 instead of 13, and the slack of 33 costs 1 more.
        self.assertIn(f"  in all   {503:>14} {503 + 9 * 40 - 9 * 15 + 1:>14} {'+226':>14}\n", text)
        self.assertIn("Violations\n  1 before, 2 after\n", text)

    def test_ends_and_events(self) -> None:
        text = self.sides(["add event 9", "ends 42 6 9"])
        self.assertIn("from event 6 to event 9, was from event 6 to event 7", text)
        self.assertIn("  event 9: added\n", text)
        self.assertIn("not known, since a time is missing", text)
        self.assertIn("1 before, not known after", text)

    def test_labels(self) -> None:
        labels = Labels({1: EventLabel("M", "Cranley", "Ashford", "departure"), 2: EventLabel("M", "Cranley", "Benton", "arrival")})
        labels.activities.update({11: "run", 12: "dwell"})
        text = self.sides(["span 11 20 26", "time 1 5"], labels)
        self.assertIn("  run of M from Ashford to Benton: 20 to 26 minutes, was 24 to 26\n", text)
        self.assertIn("  M to Cranley leaves Ashford: :03 to :05 (+2 minutes)\n", text)
        self.assertIn("\n  run ", text)
        self.assertIn("\n  dwell ", text)

    def test_turned_timetable(self) -> None:
        folder = EXAMPLES / "hourly-line"
        with Bench.open(folder / "activities", times=folder / "times", program=PROGRAM) as bench:
            before = Side.of(bench)
            bench.set_times({event: (time - 4) % 60 for event, time in bench.times.items()})
            told = compare(before, Side.of(bench))
            self.assertIn("Times\n  8 times that nothing holds, as of event 1, turned by +4 minutes to agree\n\n", told)
            bench.time(3, 30)
            told = compare(before, Side.of(bench))
            self.assertIn("turned by +4 minutes to agree\n  event 3: :31 to :34 (+3 minutes)\n\n", told)
            bench.window(5, 0, 59)
            self.assertIn("Times\n  event 1: :03 to :59 (-4 minutes)\n", compare(before, Side.of(bench)))

    def test_parts_turn_alone(self) -> None:
        """Each part of the network by itself; a single event is reported as moved."""
        script = "\n".join(["add event 1", "add event 2", "add event 3", "add event 4", "add event 5", "add activity 1 1 2 3 9 1", "add activity 2 4 3 3 9 1"])
        with Bench.from_script(script, program=PROGRAM) as bench:
            bench.set_times({1: 0, 2: 5, 3: 9, 4: 2, 5: 7})
            before = Side.of(bench)
            bench.set_times({1: 1, 2: 6, 3: 59, 4: 52, 5: 8})
            rows = compared(before, Side.of(bench))["Times"]
        wanted = ["2 times that nothing holds, as of event 1, turned by -1 minute to agree", "2 times that nothing holds, as of event 3, turned by +10 minutes to agree"]
        self.assertEqual(rows, [*wanted, "event 5: :07 to :08 (+1 minute)"])

    def test_all_moved(self) -> None:
        """A held event is not shifted."""
        with Bench.from_script("add event 1\nadd event 2\nwindow 1 0 9\nadd activity 1 1 2 3 9 1", program=PROGRAM) as bench:
            bench.set_times({1: 0, 2: 5})
            before = Side.of(bench)
            bench.set_times({1: 1, 2: 6})
            self.assertEqual(compared(before, Side.of(bench))["Times"], ["all 2 times moved by +1 minute"])

    def test_side_is_a_copy(self) -> None:
        with Bench.open(EXAMPLES / "two-trains/activities", period=10, program=PROGRAM) as bench:
            side = Side.of(bench)
            bench.span(1, 3, 9)
        self.assertEqual(side.network.activities[1], Activity(1, 1, 2, 3, 5, 2))
        self.assertEqual((side.cost, side.violations, side.tensions), (None, None, {}))

    def test_moved(self) -> None:
        self.assertEqual([moved(58, 1, 60), moved(1, 58, 60), moved(0, 30, 60), moved(5, 5, 60)], [3, -3, 30, 0])


if __name__ == "__main__":
    unittest.main()
