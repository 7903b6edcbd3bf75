"""The client with the program: each command, its exceptions, and many lines at once."""

from __future__ import annotations

import os
import shutil
import time
import unittest
from typing import Dict, List, Optional, Tuple
from unittest import mock

from pespbench import (
    Activity, Bench, Domain, Ended, Fault, Found, Infeasible, Optimum, Refused, Stopped, Tension, Violations, Window, variants,
)
from tests.common import EXAMPLES, PROGRAM, Case, over_both


@over_both
class Commands(Case):
    """Each command with its answer, in the words of docs/FORMATS.md."""

    def test_questions(self) -> None:
        bench = self.two_trains(times=EXAMPLES / "two-trains/times")
        self.assertEqual(bench.tensions(), {1: Tension(1, 3, 0), 2: Tension(2, 7, 3)})
        self.assertEqual(bench.violations(), Violations((2,), ()))
        self.assertEqual(len(bench.violations()), 1)
        self.assertEqual(bench.cost(), 3)
        self.assertEqual(list(bench.domains()), [1, 2])
        self.assertEqual(bench.domain(1), Domain(1, tuple(range(10))))
        self.assertEqual(bench.attempt(0), Stopped())
        self.assertEqual(bench.optimum(), Optimum(4, {1: 0, 2: 4}))
        self.assertEqual(bench.attempt(0), Optimum(4, {1: 0, 2: 4}))
        self.assertEqual(bench.search(5).found(), Optimum(4, {1: 0, 2: 4}))
        self.assertEqual(bench.dump(), bench.network.text())

    def test_edits(self) -> None:
        bench = self.two_trains()
        bench.add_event(3)
        bench.add_activity(Activity(3, 2, 3, 2, 4, 5))
        bench.ends(2, 3, 1)
        bench.weight(2, 6)
        bench.span(2, 3, 4)
        self.assertEqual(bench.optimum(), Optimum(4, {1: 0, 2: 5, 3: 7}))
        bench.drop_activity(3)
        bench.ends(2, 2, 1)
        bench.drop_event(3)
        bench.fix(1, 0)
        self.assertEqual(bench.network.windows, {1: Window(0), 2: None})
        bench.unfix(1)
        bench.span(1, 3, 3)
        self.assertEqual(bench.optimum(), Infeasible())
        self.assertEqual(bench.network.activities[2], Activity(2, 2, 1, 3, 4, 6))

    def test_windows(self) -> None:
        bench = self.two_trains()
        bench.window(1, 9, 3)
        self.assertEqual([domain.residues for domain in bench.domains().values()], [(0, 1, 9), (3, 4, 5, 6)])
        self.assertEqual(bench.domain(1).runs(), "0-1, 9")
        self.assertIn("\nwindow 1 9 3\n", bench.dump())
        self.assertEqual(bench.network.text(), bench.dump())
        bench.window(1, 0, 1)
        self.assertIn("\nfix 1 0\n", bench.dump())
        with self.assertRaises(Refused) as told:
            bench.window(1, 0, 11)
        self.assertEqual((told.exception.number, str(told.exception)), (13, "refused 13 length 11 is out of range"))

    def test_times(self) -> None:
        bench = self.two_trains()
        bench.time(1, 4)
        self.assertEqual(bench.times, {1: 4})
        bench.untime(1)
        self.assertEqual(bench.adopt(), Optimum(4, {1: 0, 2: 4}))
        self.assertEqual((bench.times, bench.cost()), ({1: 0, 2: 4}, 4))
        bench.set_times({2: 3})
        self.assertEqual(bench.times, {2: 3})
        for wrong, number in [({1: 0, 7: 1}, 2), ({1: 10}, 4)]:
            with self.assertRaises(Refused) as told:
                bench.set_times(wrong)
            self.assertEqual((told.exception.number, bench.times), (number, {2: 3}))
        with self.assertRaises(Refused) as told:
            bench.cost()
        self.assertEqual(told.exception.event, 1)

    def test_no_timetable_is_taken(self) -> None:
        """The result of a search without a timetable does not clear the times."""
        bench = self.two_trains()
        bench.set_times({1: 0, 2: 4})
        before = list(bench.journal)
        for none in [bench.attempt(0), Infeasible(), Stopped()]:
            with self.assertRaises(ValueError):
                bench.set_times(none.times)
        self.assertEqual((bench.times, list(bench.journal)), ({1: 0, 2: 4}, before))
        with Bench.open(None, period=10, **self.how) as empty:
            empty.set_times({})

    def test_one_face(self) -> None:
        """The result of a search can be read without knowing its type."""
        bench = self.two_trains()
        cases: List[Tuple[Found, Optional[int], Dict[int, int], Optional[int], bool]] = [
            (bench.optimum(), 4, {1: 0, 2: 4}, 4, True),
            (Stopped(5, {1: 0, 2: 5}), 5, {1: 0, 2: 5}, None, False),
            (Stopped(5, {1: 0, 2: 5}, 3), 5, {1: 0, 2: 5}, 3, False),
            (Stopped(), None, {}, None, False),
        ]
        bench.span(1, 3, 3)
        cases.append((bench.optimum(), None, {}, None, True))
        for found, cost, times, bound, is_proved in cases:
            self.assertEqual((found.cost, dict(found.times), found.lower_bound, found.is_proved), (cost, times, bound, is_proved))

    def test_files(self) -> None:
        folder = EXAMPLES / "fixed-event"
        bench = self.two_trains(fixed=folder / "fixed", times=folder / "times")
        self.assertEqual((bench.network.windows, bench.times), ({1: Window(5), 2: None}, {1: 0, 2: 3}))
        self.assertEqual(bench.violations(), Violations((2,), (1,)))
        # Times of other events are ignored, and all are taken modulo the period.
        times = self.folder / "times"
        times.write_text("1; -10\n2; 23\n9; 1\n")
        bench = self.two_trains(times=times)
        self.assertEqual((bench.times, bench.cost()), ({1: 0, 2: 3}, 3))

    def test_from_script(self) -> None:
        script = "# period 10 lines 2\nadd event 1\n\nfix 1 3\n"
        with Bench.from_script(script, **self.how) as bench:
            self.assertEqual((bench.period, bench.network.windows, bench.journal), (10, {1: Window(3)}, []))
        with self.assertRaises(Refused), Bench.from_script("add event 1\nadd event 1\n", **self.how):
            pass

    def test_comments_that_tell_no_period(self) -> None:
        """The period is that of the first comment with one, and otherwise 60; only line feeds end lines."""
        for comment in ("# period", "# period x", "# period 1O lines 5", "#period 7", "# a period 7", "# period -5", "# period " + "9" * 5_000):
            with self.subTest(comment=comment[:20]), Bench.from_script(f"{comment}\nadd event 1\n", **self.how) as bench:
                self.assertEqual((bench.period, bench.network.events), (60, [1]))
        for comment in ("# period 7", "#  period\t7 lines 5\r", "# period\n# period 7", " # period 7"):
            with self.subTest(comment=comment), Bench.from_script(f"{comment}\n", **self.how) as bench:
                self.assertEqual(bench.period, 7)
        with self.assertRaises(Fault), Bench.from_script("add event 1\x0badd event 2\n", **self.how):
            pass


@over_both
class Raised(Case):
    """Exceptions and their contents."""

    def test_refused(self) -> None:
        bench = self.two_trains()
        table = {"fix 7 0": (2, 7, None), "drop event 2": (3, 2, 1), "weight 7 0": (6, None, 7), "fix 1 10": (4, None, None)}
        for command, wanted in table.items():
            with self.assertRaises(Refused) as told:
                bench.ask(command)
            found = told.exception
            self.assertEqual((found.number, found.event, found.activity), wanted)
        self.assertEqual(bench.journal, [])

    def test_fault(self) -> None:
        bench = self.two_trains()
        table = {"fix 1 x": 3, "cots": None, "fix 1": None, "fix 1000000000 0": 2, "span 1 5 3": None}
        for command, word in table.items():
            with self.assertRaises(Fault) as told:
                bench.ask(command)
            self.assertEqual(told.exception.word, word)

    def test_lines_without_a_reply(self) -> None:
        bench = self.two_trains()
        for line in ["", "  ", "# x", "fix 1 0\ncost", "x" * 4_097]:
            self.assertRaises(ValueError, bench.ask, line)
            self.assertRaises(ValueError, bench.many, ["fix 1 0", line])
        self.assertEqual(bench.network.windows[1], None)

    def test_what_cannot_be_opened(self) -> None:
        with self.assertRaises(Ended) as told:
            Bench.open(self.folder / "none", **self.how)
        wanted = f"pespbench: activities file {self.folder}/none cannot be read. There is no such file."
        self.assertEqual((told.exception.status, str(told.exception)), (1, wanted))
        wrong = EXAMPLES / "swapped-bounds/activities"
        with self.assertRaises(Ended) as told:
            Bench.open(wrong, **self.how)
        self.assertEqual(str(told.exception), f"pespbench: activities file {wrong}, record 2: lower bound above upper bound")
        with self.assertRaises(Ended) as told:
            Bench.open(None, period=1, **self.how)
        self.assertEqual(told.exception.status, 2)
        self.assertRaises(OSError, Bench.open, EXAMPLES / "two-trains/activities", labels=self.folder / "none", **self.how)

    def test_closed(self) -> None:
        bench = self.two_trains()
        bench.close()
        bench.close()
        self.assertRaises(ValueError, bench.cost)
        self.assertEqual(bench.period, 10)


class Pipes(Case):
    """Which program is run, and what its pipes hold."""

    def test_which_program(self) -> None:
        with mock.patch.dict(os.environ, {"PESPBENCH": PROGRAM}), Bench.open(None) as bench:
            self.assertEqual(bench.program, PROGRAM)
        with mock.patch.dict(os.environ, {"PESPBENCH": "", "PATH": str(self.folder)}):
            self.assertRaises(FileNotFoundError, Bench.open, None)
        (self.folder / "pespbench").symlink_to(PROGRAM)
        with mock.patch.dict(os.environ, {"PESPBENCH": "", "PATH": f"{self.folder}:{os.environ['PATH']}"}), Bench.open(None) as bench:
            self.assertEqual((bench.program, bench.cost()), (str(self.folder / "pespbench"), 0))
        self.assertRaises(FileNotFoundError, Bench.open, None, program=self.folder / "none")

    @unittest.skipUnless(shutil.which("node"), "there is no Node")
    def test_module(self) -> None:
        """The page's module answers without a program, also in other processes."""
        with mock.patch.dict(os.environ, {"PESPBENCH": str(self.folder / "none")}):
            with Bench.open(EXAMPLES / "two-trains/activities", period=10, engine="module") as bench:
                self.assertEqual((bench.engine.name, bench.optimum()), ("module", Optimum(4, {1: 0, 2: 4})))
                self.assertEqual(variants(bench, [["span 1 3 3"]], workers=1), [Infeasible()])
        with mock.patch.dict(os.environ, {"PATH": str(self.folder)}):
            self.assertRaises(FileNotFoundError, Bench.open, None, engine="module")

    def test_one_by_one_and_at_once(self) -> None:
        with self.drawn(4, 40, 80) as bench:
            lines = [f"span {activity % 80} {activity % 50} {activity % 50 + 20}" for activity in range(400)]
            one_by_one, at_once = [], []
            for _ in range(5):
                began = time.monotonic()
                for line in lines:
                    bench.ask(line)
                middle = time.monotonic()
                bench.many(lines)
                one_by_one.append(middle - began)
                at_once.append(time.monotonic() - middle)
            # The least of some, since the machine is loaded.
            self.assertLess(min(at_once), min(one_by_one))


@over_both
class Many(Case):
    """Many lines in one write."""

    def test_outcomes(self) -> None:
        bench = self.two_trains()
        lines = ["fix 1 0", "costs", "fix 9 0", "domain 2", "adopt", "cost", "add event 3", "adopt", "time 3 7", "dump"]
        came = bench.many(lines)
        wanted = [None, Fault, Refused, Domain(2, (4, 5)), Optimum(4, {1: 0, 2: 4}), 4, None]
        for outcome, want in zip(came, wanted):
            self.assertTrue(outcome == want or isinstance(want, type) and isinstance(outcome, want), outcome)
        self.assertEqual(came[-1], bench.network.text())
        self.assertEqual(bench.times, {1: 0, 2: 4, 3: 7})
        self.assertEqual(bench.many([]), [])

    def test_no_side_waits_for_the_other(self) -> None:
        """More replies than pipes hold, after more lines than pipes hold."""
        with self.drawn(3, 60, 60) as bench:
            blanks = " " * 4_000
            came = bench.many([f"domains{blanks}", f"fix 1 1{blanks}", f"dump{blanks}"] * 40)
            self.assertEqual(len(came), 120)
            self.assertEqual(came[3], bench.domains())
            self.assertEqual(came[-1], bench.dump())

    def test_past_the_limit_of_lines(self) -> None:
        """A program accepts a million lines; the client starts another program before that."""
        with Bench.open(None, **self.how) as bench:
            bench.add_event(1)
            with mock.patch("pespbench.process.MOST_LINES", 1_000), mock.patch("pespbench.session.BATCH", 100):
                for turn in range(40):
                    self.assertEqual(bench.many([f"fix 1 {turn}"] * 70), [None] * 70)
                self.assertEqual(bench.network.windows, {1: Window(39)})
                self.assertEqual(bench.dump(), bench.network.text())


if __name__ == "__main__":
    unittest.main()
