"""What would help: each answer compared with a search of its own, their texts, and what is kept after an early end."""

from __future__ import annotations

import contextlib
import io
import os
import signal
import subprocess
import sys
import time
import unittest
from concurrent.futures import ThreadPoolExecutor
from typing import Any, List, Optional, Tuple
from unittest import mock

from pespbench import Activity, Bench, Found, Infeasible, Labels, Names, Optimum, Stopped
from pespbench.__main__ import main
from pespbench.helps import Gain, Helps, helps, text_of
from pespbench.helps.questions import Question
from tests.common import EXAMPLES, LONG, PROGRAM, SLOWER, TOP, Case, over_both

# Two trains that have to meet at both ends, at period 30: one more minute of one turn, or of the other, lets them meet better.
TURNS = "1; 1; 2; 10; 10; 1\n2; 2; 3; 3; 5; 4\n3; 3; 4; 10; 10; 1\n4; 4; 1; 4; 6; 2\n5; 2; 1; 3; 30; 9\n"
KINDS = {1: "run", 2: "turn", 3: "run", 4: "turn", 5: "change"}


def cost(found: Found) -> Optional[int]:
    return None if isinstance(found, Infeasible) else found.cost


def saved(bench: Bench, activity: Activity, minutes: int) -> Optional[int]:
    """What another span saves, by two searches: None if there is no timetable with it, or none without it."""
    more, less = max(minutes, 0), max(-minutes, 0)
    before = cost(bench.optimum())
    with bench.trial():
        bench.span(activity.number, activity.lower - less, activity.upper + more)
        after = cost(bench.optimum())
    return None if before is None or after is None else before - after + less * activity.weight


class Answers(unittest.TestCase):
    """The questions, and the handling of answers, without a program."""

    def test_spans(self) -> None:
        """A span is never wider than needed to exclude nothing, and the cost of a lowered minimum counts."""
        activity = Activity(7, 1, 2, 3, 9, 5)
        table = [(1, 3, 10, 0), (3, 3, 12, 0), (99, 3, 12, 0), (-1, 2, 9, 5), (-3, 0, 9, 15), (-99, 0, 9, 15)]
        for minutes, lower, upper, paid in table:
            self.assertEqual(Question.of(activity, minutes, 10), Question(7, lower, upper, paid))
        greatest = Activity(7, 1, 2, 999_999, 1_000_000, 5)
        self.assertEqual([Question.of(greatest, minutes, 10).is_legal() for minutes in (1, -1)], [False, True])

    def test_saved(self) -> None:
        question, none = Question(7, 2, 9, 5), Stopped()
        table: List[Tuple[Found, Found, Optional[int]]] = [
            (Optimum(20, {}), Optimum(22, {}), 3), (Stopped(20, {}), Stopped(18, {}), 7), (Optimum(20, {}), Infeasible(), None),
            (Infeasible(), Optimum(3, {}), None), (none, Optimum(3, {}), None), (Optimum(20, {}), none, None),
        ]  # fmt: skip
        for before, found, saves in table:
            self.assertEqual(question.gain(before, found), Gain(7, 2, 9, found, saves))

    def test_order(self) -> None:
        """The most first; if the unchanged network has no timetable, the cheapest."""
        came = [Gain(number, 0, 1, Optimum(30 - saves, {}), saves) for number, saves in [(4, 2), (3, 0), (2, 2), (1, 5), (9, -3)]]
        answer = Helps(1, Optimum(30, {}), 6, (*came, Gain(8, 0, 1, Infeasible(), None)))
        self.assertEqual([gain.activity for gain in answer.gains], [1, 2, 4])
        found: List[Found] = [Optimum(9, {}), Infeasible(), Stopped(7, {}), Stopped(), Optimum(9, {})]
        answer = Helps(1, Infeasible(), 5, tuple(Gain(5 - place, 0, 1, each, None) for place, each in enumerate(found)))
        self.assertEqual([gain.activity for gain in answer.gains], [3, 1, 5])

    def test_told(self) -> None:
        names = Names(Labels(), {1: Activity(1, 4, 5, 3, 3, 1), 20: Activity(20, 5, 4, 3, 5, 1)})
        gains = (Gain(1, 3, 4, Optimum(10, {}), 1_200), Gain(20, 3, 6, Stopped(12, {}), 8))
        told = text_of(Helps(1, Optimum(1_210, {}), 3, gains), names)
        self.assertEqual(told, """The best timetable as it is costs 1,210.
2 of 3 activities were asked about, each with 1 minute more; 1 not asked.
Each of these alone saves:

      1,200  activity 1 from event 4 to event 5   3 to 4 minutes in place of 3
  8 or more  activity 20 from event 5 to event 4  3 to 6 minutes in place of 3 to 5
""")
        none = (Gain(1, 1, 3, Stopped(10, {}), None), Gain(20, 1, 5, Infeasible(), None))
        told = text_of(Helps(-2, Stopped(), 2, none), names)
        self.assertEqual(told, """As it is, no timetable was found; perhaps there is one.
2 of 2 activities were asked about, each with its least lowered by 2 minutes.
With each of these alone there is a timetable:

  costs 10 or less  activity 1 from event 4 to event 5  1 to 3 minutes in place of 3
""")
        told = text_of(Helps(1, Infeasible(), 2, ()), names)
        self.assertEqual(told.splitlines()[::2], ["As it is, no timetable meets everything.", "None of them helps."])
        told = text_of(Helps(1, Stopped(5, {}), 1, ()), names)
        self.assertEqual(told.splitlines()[::2], ["As it is, a timetable was found that costs 5; perhaps not the best.", "None of them saves anything."])


@over_both
class Asked(Case):
    """Over the engines: each answer is that of two searches."""

    def turns(self) -> Bench:
        """The two trains."""
        path = self.folder / "activities"
        path.write_text(TURNS)
        bench = Bench.open(path, period=30, labels=Labels(activities=KINDS), **self.how)
        self.addCleanup(bench.close)
        return bench

    def assert_right(self, bench: Bench, answer: Helps, activities: List[int]) -> None:
        """All are answered, each is right, and nothing has changed."""
        self.assertEqual(sorted(gain.activity for gain in answer.answers), sorted(activities))
        for gain in answer.answers:
            self.assertEqual((gain.saves, gain.is_sure), (saved(bench, bench.network.activities[gain.activity], answer.minutes), True), gain)
        self.assertEqual(answer.before, bench.optimum())

    def test_kinds(self) -> None:
        """Those that are named; by default all but runs, dwells and headways; of them those that exclude something, the dearest
        first."""
        bench = self.turns()
        before = bench.dump(), bench.journal, bench.times
        with ThreadPoolExecutor(2) as executor:
            table: List[Tuple[Optional[List[str]], int, List[int]]] = [(None, 1, [2, 4, 5]), (["turn"], -1, [2, 4])]
            table += [(["run", "turn"], 2, [1, 2, 3, 4]), ([], 1, [])]
            for kinds, minutes, activities in table:
                answer = helps(bench, kinds, minutes=minutes, executor=executor)
                self.assert_right(bench, answer, activities)
            self.assertGreater(len(helps(bench, ["turn"], executor=executor).gains), 0)
            self.assertRaises(ValueError, helps, bench, ["headway"], executor=executor)
        self.assertEqual((bench.dump(), bench.journal, bench.times), before)

    def test_without_kinds(self) -> None:
        """If no activity has a kind, all are tried."""
        bench = self.two_trains()
        bench.set_times({1: 0, 2: 5})
        answer = helps(bench, minutes=-1, workers=1)
        self.assert_right(bench, answer, [1, 2])
        self.assertEqual(([gain.activity for gain in answer.answers], bench.times), ([1, 2], {1: 0, 2: 5}))

    def test_none_as_it_is(self) -> None:
        """For the planner's story each repair is listed, with the cost of its timetable."""
        with Bench.load(EXAMPLES / "two-changes", **self.how) as bench, ThreadPoolExecutor(2) as executor:
            answer = helps(bench, ["change", "turn"], minutes=2, executor=executor)
            self.assertEqual((answer.before, {gain.saves for gain in answer.answers}), (Infeasible(), {None}))
            wanted = []
            for gain in answer.answers:
                with bench.trial():
                    bench.span(gain.activity, gain.lower, gain.upper)
                    found = bench.optimum()
                self.assertEqual(gain.found, found)
                wanted += [(cost(found), gain.activity)] if isinstance(found, Optimum) else []
            self.assertEqual([(cost(gain.found), gain.activity) for gain in answer.gains], sorted(wanted))
            self.assertTrue(wanted)

    def test_watched(self) -> None:
        """The results are reported before the first question and after each."""
        seen: List[Helps] = []
        with ThreadPoolExecutor(1) as executor:
            answer = helps(self.turns(), watch=seen.append, executor=executor)
        self.assertEqual([len(each.answers) for each in seen], [0, 1, 2, 3])
        self.assertEqual((seen[-1], {each.before for each in seen if isinstance(each.before, Infeasible)}), (answer, set()))

    def test_what_stands(self) -> None:
        """A search that stops without a timetable does not hide the working timetable."""
        bench = self.drawn(2, 12, 24, room=6)
        self.addCleanup(bench.close)
        best = bench.optimum()
        assert isinstance(best, Optimum)
        bench.set_times(best.times)
        bench.weight(0, bench.network.activities[0].weight + 1)
        with ThreadPoolExecutor(1) as executor:
            answer = helps(bench, nodes=1, executor=executor)
        self.assertLessEqual(cost(answer.before) or 0, bench.cost())

    def test_drawn(self) -> None:
        for seed in range(8 // SLOWER):
            with self.drawn(seed, 5, 8, period=12, room=3) as bench, ThreadPoolExecutor(2) as executor:
                for minutes in (1, -1):
                    answer = helps(bench, minutes=minutes, executor=executor)
                    self.assert_right(bench, answer, [each.number for each in bench.network.activities.values() if each.upper - each.lower < 11])

    def test_wrong_words(self) -> None:
        bench = self.turns()
        self.assertRaises(ValueError, helps, bench, minutes=0)
        self.assertRaises(ValueError, helps, bench, seconds=-1)
        self.assertRaises(ValueError, helps, bench, nodes=0)
        self.assertRaises(ValueError, helps, bench, workers=0)
        self.assertRaises(ValueError, helps, bench, ["runs"])


# Activities of 3 to 9 minutes at period 60; a search with a wider activity 2 does not end, and others save their number.
HALF = r"""
known = answer.__dict__
if line == "dump":
    rows = "".join("add activity %d 1 2 3 9 1\n" % number for number in (1, 2, 3))
    write(("# period 60 lines 5\nadd event 1\nadd event 2\n" + rows).encode())
elif line.startswith("span"):
    number, lower, upper = map(int, line.split()[1:])
    known["wide"] = number if upper > 9 else 0
    write(b"ok\n")
elif line.startswith("try"):
    wide = known.get("wide", 0)
    if wide == 2:
        pathlib.Path(__file__).with_name("searching").touch()
        time.sleep(600)
    write(b"optimum %d 2\n1 0\n2 3\n" % (20 - wide))
else:
    write(b"ok\n")
"""


class EndedEarly(Case):
    """If one search never ends, the results of others are kept."""

    WANTED = [(3, 3), (1, 1)]

    def setUp(self) -> None:
        super().setUp()
        self.program = self.stand_in(HALF)

    def saves(self, answer: Helps) -> List[Tuple[int, Optional[int]]]:
        return [(gain.activity, gain.saves) for gain in answer.gains]

    def over_after_two(self, bench: Bench, **how: Any) -> Helps:
        """The report if the time is over as soon as two have answered."""
        seen: List[Helps] = []

        def now() -> float:
            return time.monotonic() + (1_000 if seen and len(seen[-1].answers) == 2 else 0)

        with mock.patch("pespbench.workers.time", mock.Mock(monotonic=now)):
            return helps(bench, seconds=600, watch=seen.append, **how)

    def test_out_of_time(self) -> None:
        """The results until then are reported, and no search continues, in processes and in threads of this one."""
        with Bench.open(None, program=self.program) as bench:
            with ThreadPoolExecutor(2) as executor:
                answers = [self.over_after_two(bench, workers=2), self.over_after_two(bench, executor=executor)]
            for answer in answers:
                self.assertEqual((answer.before, answer.asked, self.saves(answer)), (Optimum(20, {1: 0, 2: 3}), 3, self.WANTED))
            self.assertEqual(helps(bench, seconds=0), Helps(1, Stopped(), 3))
            bench.add_event(3)

    def test_first_search_without_end(self) -> None:
        """It gets only a part of the time, and the questions the rest."""
        program = self.stand_in(HALF.replace("if wide == 2:", "if wide == 0:"))
        with Bench.open(None, program=program) as bench:
            answer = helps(bench, seconds=15, workers=1)
        self.assertEqual((answer.before, sorted(gain.activity for gain in answer.answers)), (Stopped(), [1, 2, 3]))

    def test_interrupt(self) -> None:
        """At Ctrl-C and SIGTERM the command prints its results, and its status reports the signal."""
        network = self.folder / "activities"
        network.write_text("".join(f"{number}; 1; 2; 3; 9; 1\n" for number in (1, 2, 3)))
        words = [sys.executable, "-m", "pespbench", "helps", str(network), "--program", str(self.program), "--workers", "1"]
        for number in (signal.SIGINT, signal.SIGTERM):
            (self.folder / "searching").unlink(missing_ok=True)
            environment = {**os.environ, "PYTHONPATH": str(TOP / "python")}
            command = subprocess.Popen(words, stdout=subprocess.PIPE, stderr=subprocess.PIPE, env=environment)
            self.addCleanup(command.kill)
            until = time.monotonic() + LONG
            while not (self.folder / "searching").exists():
                self.assertLess(time.monotonic(), until, "it does not search")
                time.sleep(0.02)
            command.send_signal(number)
            output, error = command.communicate(timeout=LONG)
            told = output.decode().splitlines()
            self.assertEqual((command.returncode, error, told[1]), (128 + number, b"", "1 of 3 activities were asked about, each with 1 minute more; 2 not asked."))
            self.assertEqual(told[-1], "  1  activity 1 from event 1 to event 2  3 to 10 minutes in place of 3 to 9")


class Words(Case):
    """The command as it is typed."""

    def typed(self, *words: str) -> str:
        with contextlib.redirect_stdout(io.StringIO()) as told:
            self.assertEqual(main(["helps", *words, "--program", PROGRAM]), 0)
        return told.getvalue()

    def test_told(self) -> None:
        network, labels = self.folder / "activities", self.folder / "labels"
        network.write_text(TURNS)
        Labels(activities=KINDS).write(labels)
        files = [str(network), "--period", "30", "--labels", str(labels), "--workers", "1"]
        told = self.typed(*files, "--kinds", "turn, change").splitlines()
        self.assertEqual(told[:3], ["The best timetable as it is costs 161.", "3 of 3 activities were asked about, each with 1 minute more.", "Each of these alone saves:"])
        self.assertRegex(told[4], r"  \d+  turn 4 from event 4 to event 1  4 to 7 minutes in place of 4 to 6")
        less = self.typed(*files, "--minutes", "-1").splitlines()
        self.assertEqual(less[1:], ["3 of 3 activities were asked about, each with its least lowered by 1 minute.", "None of them saves anything."])
        self.assertIn("0 of 0 activities", self.typed(*files, "--kinds", ""))

    def test_refused(self) -> None:
        two = ["helps", "--period", "10", str(EXAMPLES / "two-trains/activities"), "--program", PROGRAM]
        for words in (["--minutes", "0"], ["--minutes", "x"], ["--seconds", "-1"], ["--workers", "0"]):
            with contextlib.redirect_stderr(io.StringIO()), self.assertRaises(SystemExit) as ended:
                main([*two, *words])
            self.assertEqual(ended.exception.code, 2)
        with contextlib.redirect_stderr(io.StringIO()) as told:
            self.assertEqual(main([*two, "--kinds", "run"]), 2)
        self.assertEqual(told.getvalue(), "pespbench: no activity is of the kind run; there are activity\n")


if __name__ == "__main__":
    unittest.main()
