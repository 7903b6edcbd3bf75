"""Variants and parts: with processes of this machine, threads, executors of the caller, and Dask if it is installed."""

from __future__ import annotations

import itertools
import multiprocessing
import os
import random
import signal
import unittest
from concurrent.futures import ProcessPoolExecutor, ThreadPoolExecutor
from contextlib import contextmanager
from typing import Callable, Iterator, List
from unittest import mock

from pespbench import Bench, Fault, Infeasible, Lost, Optimum, Refused, optimum_in_parts, variants
from pespbench.network import Activity, Network
from pespbench.parts import parts_of, ranges_of
from pespbench.workers import Bar
from tests.common import SLOWER, Case, over_both
from tests.test_progress import interrupt_when


class Small(Case):
    """A test with small networks."""

    def small(self, seed: int) -> Bench:
        """A network of 4 events whose optimum is found at once."""
        return self.drawn(seed, 4, 6, period=10, room=3)


def drawn_lists(count: int) -> List[List[str]]:
    draw = random.Random(count)
    return [[f"span {draw.randrange(6)} {draw.randrange(10)} {draw.randrange(10, 16)}", f"fix 1 {draw.randrange(10)}"] for _ in range(count)]


def one_by_one(bench: Bench, lists: List[List[str]], ask: str = "optimum") -> List[object]:
    """The answer of each list of edits, by one program."""
    answers: List[object] = []
    for edits in lists:
        with bench.trial():
            answers.append(bench.many([*edits, ask])[-1])
    return answers


class Dying(Case):
    """`variants` with a program that dies."""

    def test_a_program_that_dies(self) -> None:
        """A variant at which the program dies is repeated once, and then reported."""
        program = self.stand_in('if line == "fix 1 7" or line == "fix 1 5" and start == 2:\n    sys.exit(1)\nwrite(EMPTY if line == "dump" else b"ok\\n" if line != "cost" else b"cost 3\\n")')
        with Bench.open(None, period=10, program=program) as bench, ThreadPoolExecutor(1) as executor:
            bench.add_event(1)
            lists = [[f"fix 1 {time}"] for time in range(9)]
            came = variants(bench, lists, ask="cost", executor=executor)
        lost = came.pop(7)
        self.assertEqual(came, [3] * 8)
        self.assertTrue(isinstance(lost, Lost) and lost.task == 7 and "status 1" in str(lost), lost)


# A program whose second start waits in the middle of its opening, and which records that it searches.
OPENS_LATE = r"""
folder = pathlib.Path(__file__).parent
if line == "add event 1" and start == 2:
    (folder / "opening").touch()
    while not (folder / "may-open").exists():
        time.sleep(0.01)
if line == "optimum":
    (folder / "searching").touch()
write(EMPTY if line == "dump" else b"infeasible\n" if line == "optimum" else b"ok\n")
"""


class Over(Case):
    """`variants` that are interrupted."""

    def test_a_thread_that_opens_late(self) -> None:
        """A thread whose program starts only after the end of all work sends nothing to it: nobody would end that search."""
        opening, searching = self.folder / "opening", self.folder / "searching"
        with Bench.open(None, period=10, program=self.stand_in(OPENS_LATE)) as bench, ThreadPoolExecutor(1) as executor:
            bench.add_event(1)
            interrupt_when(opening.exists)
            self.assertRaises(KeyboardInterrupt, variants, bench, [[], []], executor=executor)
            (self.folder / "may-open").touch()
            executor.submit(int).result()
            self.assertFalse(searching.exists(), "it searches")
            self.assertEqual((variants(bench, [[]], executor=executor), searching.exists()), ([Infeasible()], True))


@over_both
class Variants(Small):
    """`variants`."""

    def test_a_worker_is_ended(self) -> None:
        """One worker dies in the middle of many variants: all are answered, in their order."""
        lists = drawn_lists(1_000 // SLOWER)
        with self.small(1) as bench:
            wanted = one_by_one(bench, lists)
            with at_step(len(lists) * 3 // 10, end_one):
                self.assertEqual(variants(bench, lists, workers=2), wanted)

    def test_what_is_asked(self) -> None:
        lists = drawn_lists(20)
        with self.small(2) as bench:
            bench.many(["time 0 3", "time 1 3", "time 2 4", "time 3 5"])
            for ask in ["domains", "try 0", "cost", "dump"]:
                with ThreadPoolExecutor(3) as executor:
                    came = variants(bench, lists, ask=ask, executor=executor)
                self.assertEqual([str(answer) for answer in came], [str(answer) for answer in one_by_one(bench, lists, ask)])
            self.assertEqual(variants(bench, [], workers=1), [])

    def test_refusals(self) -> None:
        with self.small(3) as bench, ThreadPoolExecutor(1) as executor:
            came = variants(bench, [["fix 9 0"], ["fix 0"], [], ["fix 0 x"]], ask="cost", executor=executor, progress=False)
            self.assertEqual([type(answer) for answer in came], [Refused, Fault, Refused, Fault])
            for wrong in ["cost", "", "# x", "dump", "fix 1 0\ncost"]:
                self.assertRaises(ValueError, variants, bench, [[wrong]], executor=executor)
            self.assertRaises(ValueError, variants, bench, [[]], ask="", executor=executor)

    def test_a_pool_of_the_caller_that_breaks(self) -> None:
        with self.small(4) as bench, ProcessPoolExecutor(1, mp_context=multiprocessing.get_context("forkserver")) as pool:
            self.assertEqual(variants(bench, [["fix 1 1"]], executor=pool), one_by_one(bench, [["fix 1 1"]]))
            with self.assertRaises(Exception):
                pool.submit(os._exit, 1).result()
            came = variants(bench, [["fix 1 1"], ["fix 1 2"]], executor=pool)
            self.assertEqual([type(answer) for answer in came], [Lost, Lost])

    def test_progress(self) -> None:
        with self.small(5) as bench, ThreadPoolExecutor(1) as executor, mock.patch("sys.stderr") as stderr:
            variants(bench, [[], []], ask="domains", executor=executor, progress=True)
            written = "".join(call.args[0] for call in stderr.write.call_args_list)
            self.assertIn("] 0 of 2\r[", written)
            self.assertTrue(written.endswith("#] 2 of 2\n"), written)


@contextmanager
def at_step(step: int, do: Callable[[], None]) -> Iterator[None]:
    """Does something once, when this many tasks are done."""
    steps = itertools.count(1)

    def stepped(_: Bar) -> None:
        if next(steps) == step:
            do()

    with mock.patch.object(Bar, "step", stepped):
        yield
    assert next(steps) > step, "too few steps"


def end_one() -> None:
    """Ends one of this process's workers."""
    process = multiprocessing.active_children()[0]
    os.kill(process.pid or 0, signal.SIGKILL)


@over_both
class Parts(Small):
    """`optimum_in_parts`."""

    def test_small_networks(self) -> None:
        """On small networks the optimum in parts is the optimum, its text byte for byte."""
        seen = set()
        with ThreadPoolExecutor(3) as executor:
            for seed in range(200 // SLOWER):
                with self.small(seed) as bench:
                    if seed % 3 == 0:
                        bench.many(f"span {number} {seed * number % 10} {seed * number % 10 + 2}" for number in range(6))
                    wanted = bench.optimum()
                    before = bench.dump()
                    came = optimum_in_parts(bench, executor=executor, spans=1 + seed % 3, ranges=1 + seed % 4)
                    self.assertEqual(came.text(), wanted.text(), seed)
                    self.assertEqual(bench.dump(), before)
                    seen.add(type(wanted))
        self.assertEqual(seen, {Optimum, Infeasible})

    def test_over_processes(self) -> None:
        with self.small(7) as bench:
            self.assertEqual(optimum_in_parts(bench, workers=2), bench.optimum())
            self.assertRaises(ValueError, optimum_in_parts, bench, spans=0)

    def test_ties(self) -> None:
        """Timetables of equal cost in many parts: the first of them all is returned."""
        with Bench.open(None, period=6, **self.how) as bench, ThreadPoolExecutor(2) as executor:
            bench.many([f"add event {event}" for event in range(3)])
            bench.many(["add activity 1 0 1 0 4 1", "add activity 2 1 2 0 4 1", "add activity 3 0 2 4 5 0"])
            for ranges in range(1, 7):
                self.assertEqual(optimum_in_parts(bench, executor=executor, ranges=ranges), bench.optimum())

    def test_parts_part_the_timetables(self) -> None:
        activities = {1: Activity(1, 0, 1, -2, 4, 5), 2: Activity(2, 1, 2, 0, 9, 1), 3: Activity(3, 0, 0, 0, 5, 90), 4: Activity(4, 0, 1, 0, 10, 90)}
        network = Network(10, {0: None, 1: None, 2: None}, activities)
        parts = parts_of(network, 3, 3)
        self.assertEqual(len(parts), 9)
        self.assertEqual([part.constant for part in parts], sorted(part.constant for part in parts))
        for times in itertools.product(range(10), repeat=2):
            met = [part for part in parts if all(is_met(network, dict(enumerate((0, *times))), edit) for edit in part.edits)]
            slack = activities[1].slack(10, dict(enumerate((0, *times))))
            self.assertEqual(len(met), 1 if slack <= 6 else 0)
        for length, ranges in itertools.product(range(2, 12), range(1, 14)):
            values = [value for first, last in ranges_of(Activity(1, 0, 1, -3, length - 4), ranges) for value in range(first, last + 1)]
            self.assertEqual(values, list(range(-3, length - 3)))


def is_met(network: Network, times: "dict[int, int]", edit: str) -> bool:
    number, lower, upper = map(int, edit.split()[1:])
    activity = network.activities[number]
    return (times[activity.to_event] - times[activity.from_event] - lower) % network.period <= upper - lower


if __name__ == "__main__":
    unittest.main()
