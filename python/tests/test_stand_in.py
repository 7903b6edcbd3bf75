"""The client with programs that die, block, send incomplete lines, or write nonsense."""

from __future__ import annotations

import os
import subprocess
import sys
import threading
import time
import unittest
from pathlib import Path
from typing import List

from pespbench import BadReply, Bench, Ended, Stopped, Window
from pespbench.process import Process
from tests.common import LONG, SOON, TOP, Case

USUAL = """
if line == "dump":
    write(EMPTY)
elif line.startswith("try"):
    write(b"stopped none\\n")
else:
    write(b"ok\\n")
"""


def before_usual(text: str) -> str:
    return f"{text.strip()}\n{USUAL.strip()}"


# Forks while benches are open: a plain one, and one to start a program, in which the benches of other threads are dropped.
FORKS = """
import gc, os, sys, threading
from pespbench import Bench

mine, is_open, may_end = threading.local(), threading.Event(), threading.Event()

def hold():
    mine.bench = Bench.open(None, period=10, program=sys.argv[1])
    is_open.set()
    may_end.wait()
    mine.bench.close()

thread = threading.Thread(target=hold)
thread.start()
is_open.wait()
bench = Bench.open(None, period=10, program=sys.argv[1])
if os.fork() == 0:
    del bench
    gc.collect()
    os._exit(0)
os.wait()
bench.add_event(1)
bench.close()
may_end.set()
thread.join()
"""


class StandIns(Case):
    """The exception, and that the next use works."""

    def opened(self, text: str) -> Bench:
        bench = Bench.open(None, period=10, program=self.stand_in(text))
        self.addCleanup(bench.close)
        return bench

    def starts(self) -> int:
        return len(Path(self.folder / "stand-in.starts").read_text())

    def test_dies_at_a_line(self) -> None:
        dying = 'if line == "cost":\n    print("pespbench: no more", file=sys.stderr)\n    sys.exit(3)'
        bench = self.opened(before_usual(dying))
        bench.add_event(4)
        with self.assertRaises(Ended) as told:
            bench.cost()
        self.assertEqual((told.exception.status, str(told.exception)), (3, "pespbench: no more"))
        bench.fix(4, 2)
        self.assertEqual((bench.network.windows, self.starts()), ({4: Window(2)}, 2))

    def test_dies_by_a_signal_in_half_a_line(self) -> None:
        bench = self.opened(before_usual('if line == "cost":\n    write(b"cos")\n    os.kill(os.getpid(), 9)'))
        with self.assertRaises(Ended) as told:
            bench.cost()
        self.assertEqual(told.exception.status, -9)
        self.assertIn("-9", str(told.exception))

    def test_dies_in_the_middle_of_many(self) -> None:
        bench = self.opened(before_usual('if line == "add event 2" and start == 1:\n    sys.exit(1)'))
        with self.assertRaises(Ended):
            bench.many(["add event 1", "add event 2", "add event 3"])
        self.assertEqual((bench.network.events, bench.journal), ([1], ["add event 1"]))
        bench.many(["add event 2", "add event 3"])
        self.assertEqual((bench.network.events, self.starts()), ([1, 2, 3], 2))

    def test_dies_at_once_and_in_the_replay(self) -> None:
        self.assertRaises(Ended, self.opened, "sys.exit(1)")
        bench = self.opened(before_usual('if line == "cost" or line == "fix 1 2" and start % 2 == 1:\n    sys.exit(1)'))
        bench.many(["add event 1", "fix 1 2"])
        self.assertRaises(Ended, bench.cost)
        self.assertRaises(Ended, bench.add_event, 5)
        bench.add_event(6)
        self.assertEqual(bench.network.events, [1, 6])

    def test_dies_within_a_trial(self) -> None:
        bench = self.opened(before_usual('if line == "cost":\n    sys.exit(1)'))
        with self.assertRaises(Ended), bench.trial():
            bench.add_event(1)
            bench.cost()
        self.assertEqual((bench.network.events, bench.journal), ([], []))
        bench.add_event(2)

    def test_half_lines(self) -> None:
        slow = 'for byte in {"dump": EMPTY, "domains": b"domains 2\\n1: 0 1\\n2:\\n"}.get(line, b"ok\\n"):\n'
        bench = self.opened(slow + "    write(bytes([byte]))\n    time.sleep(0.002)")
        self.assertEqual([domain.residues for domain in bench.domains().values()], [(0, 1), ()])
        self.assertEqual(bench.many(["add event 1", "fix 1 1"]), [None, None])

    def test_blocks(self) -> None:
        bench = self.opened(before_usual('if line == "try 2000":\n    time.sleep(600)'))
        bench.add_event(1)
        began = time.monotonic()
        self.assertEqual(bench.search(2).found(), Stopped())
        self.assertLess(time.monotonic() - began, SOON)
        bench.add_event(2)
        self.assertEqual((bench.network.events, self.starts()), ([1, 2], 2))

    def test_outlives_the_thread_that_opened_it(self) -> None:
        opened: List[Bench] = []
        thread = threading.Thread(target=lambda: opened.append(self.opened(before_usual(""))))
        thread.start()
        thread.join()
        time.sleep(0.2)
        opened[0].add_event(1)
        self.assertEqual((opened[0].network.events, self.starts()), ([1], 1))

    def test_reads_late(self) -> None:
        bench = self.opened(before_usual('if line == "add event 0":\n    time.sleep(0.3)'))
        self.assertEqual(bench.many([f"add event {event}" for event in range(30_000)]), [None] * 30_000)

    def test_closes_its_output_and_lives(self) -> None:
        bench = self.opened(before_usual('if line == "cost":\n    os.close(1)\n    time.sleep(600)'))
        began = time.monotonic()
        with self.assertRaises(Ended) as told:
            bench.cost()
        self.assertEqual(told.exception.status, -9)
        self.assertLess(time.monotonic() - began, SOON)

    def test_forked(self) -> None:
        """A process that drops its parent's open programs prints nothing, and the parent continues."""
        words = [sys.executable, "-W", "error", "-c", FORKS, str(self.stand_in(before_usual("")))]
        done = subprocess.run(words, capture_output=True, env={**os.environ, "PYTHONPATH": str(TOP / "python")}, timeout=LONG)
        self.assertEqual((done.returncode, done.stdout, done.stderr.decode()), (0, b"", ""))

    def test_takes_long_to_end(self) -> None:
        program = self.stand_in(before_usual(""))
        program.write_text(program.read_text() + "time.sleep(600)\n")
        bench = Bench.open(None, period=10, program=program)
        began = time.monotonic()
        bench.close()
        self.assertLess(time.monotonic() - began, SOON)

    def test_nonsense(self) -> None:
        for reply in ["hello", "", "domains", "domains x", "cost", "cost many", "optimum 1 2", "1: x", "\\xff\\xff", "refused"]:
            program = self.stand_in(before_usual(f'if line == "cost":\n    write(b"{reply}\\n1 2\\n1 x\\n")'))
            with Bench.open(None, period=10, program=program) as bench:
                self.assertRaises(BadReply, bench.cost)
                bench.add_event(1)
                self.assertEqual(bench.network.events, [1])

    def test_one_reply_too_many(self) -> None:
        """It is reported at once, and none of it is accepted: in one write, in another one, and a part of a line."""
        for extra in ['b"cost 3\\ncost 4\\n"', 'b"cost 3\\n")\n    write(b"cost 4\\n"', 'b"cost 3\\ncos"']:
            bench = self.opened(before_usual(f'if line == "cost":\n    write({extra})\n    return'))
            bench.add_event(1)
            with self.assertRaises(BadReply):
                bench.cost()
                bench.add_event(2)
            bench.add_event(3)
            self.assertEqual((bench.network.events, bench.journal), ([1, 3], ["add event 1", "add event 3"]))

    def test_one_reply_too_many_later(self) -> None:
        """Unexpected output is noticed before the next line is sent, and no answer shifts."""
        waits = 'while not pathlib.Path(__file__).with_name("may-go-on").exists():\n        time.sleep(0.01)'
        bench = self.opened(before_usual(f'if line == "add event 1" and start == 1:\n    write(b"ok\\n")\n    {waits}'))
        bench.add_event(1)
        (self.folder / "may-go-on").touch()
        transport = bench._session._transport
        assert isinstance(transport, Process)
        self.assertTrue(transport._selector.select(LONG))
        self.assertRaises(BadReply, bench.add_event, 2)
        bench.add_event(3)
        self.assertEqual(bench.network.events, [1, 3])

    def test_replies_to_another_command(self) -> None:
        """A reply that comes instead of another is rejected, if its form shows it."""
        bench = self.opened(before_usual('if line == "domain 2":\n    write(b"3: 1 2\\n")\n    return'))
        for command in ["domain 2", "cost", "violations", "tensions", "optimum"]:
            self.assertRaises(BadReply, bench.ask, command)

    def test_a_reply_to_nothing(self) -> None:
        self.assertRaises(BadReply, self.opened, 'write(b"ok\\n" + EMPTY)')

    def test_many_with_one_reply_too_many(self) -> None:
        bench = self.opened(before_usual('if line == "fix 1 2":\n    write(b"ok\\nok\\n")\n    return'))
        self.assertRaises(BadReply, bench.many, ["add event 1", "fix 1 2"])
        self.assertEqual(bench.network.events, [event for event in [1] if "add event 1" in bench.journal])

    def test_another_answer(self) -> None:
        bench = self.opened(before_usual('if line in ("cost", "fix 1 1"):\n    write(b"infeasible\\n")\n    return'))
        self.assertRaises(BadReply, bench.cost)
        self.assertRaises(BadReply, bench.fix, 1, 1)
        self.assertRaises(BadReply, bench.optimum)


if __name__ == "__main__":
    unittest.main()
