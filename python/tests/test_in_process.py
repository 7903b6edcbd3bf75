"""The engine in process with a stand-in of the library: calls that fail, and searches that are abandoned."""

from __future__ import annotations

import gc
import signal
import threading
import time
import tracemalloc
import unittest
from collections import deque
from functools import partial
from typing import Any, Callable, Dict, List, Optional, Tuple, Union
from unittest import mock

from pespbench import BadReply, Bench, Ended, Engine, Stopped, Window
from tests.common import LONG, SOON, Case
from tests.stand_in_library import MEMORY, Answer, StandIn, usual


def same(answer: Answer) -> Answer:
    """An answer that is always the same."""
    return answer


class StandIns(Case):
    """Calls that fail, or do not return."""

    def opened(self, others: Optional[Dict[bytes, Callable[[], Answer]]] = None, **how: Any) -> Bench:
        """A bench over a stand-in that answers as usual, except some lines."""
        self.library = StandIn(lambda line: usual(line, others or {}), how.pop("status", 0))
        loading = mock.patch("pespbench.library.loaded", return_value=self.library.calls())
        loading.start()
        self.addCleanup(loading.stop)
        return Bench.open(None, period=10, engine=Engine("library", "stand-in"), **how)

    def counts(self) -> "tuple[int, int]":
        return self.library.opened, self.library.closed

    def wait_until(self, holds: Callable[[], bool], what: str) -> None:
        until = time.monotonic() + LONG
        while not holds():
            self.assertLess(time.monotonic(), until, what)
            time.sleep(0.01)

    def test_no_memory(self) -> None:
        """The text is the program's; the next session has all accepted changes."""
        for command in ("fix 1 2", "time 1 2", "optimum"):
            bench = self.opened({command.encode(): lambda: MEMORY})
            bench.add_event(1)
            with self.assertRaises(Ended) as told:
                bench.ask(command)
            self.assertEqual((told.exception.status, str(told.exception), self.counts()), (1, "pespbench: out of memory", (1, 1)))
            self.assertEqual((bench.cost(), bench.journal, self.counts()[1]), (7, ["add event 1"], 1))
        with self.assertRaises(Ended) as told:
            self.opened(status=MEMORY)
        self.assertEqual((str(told.exception), self.counts()), ("pespbench: out of memory", (0, 0)))

    def test_no_memory_for_a_move(self) -> None:
        bench = self.opened({b"time 3 4": lambda: MEMORY})
        self.assertRaises(Ended, bench.time, 3, 4)
        self.assertRaises(Ended, bench.moves, [(1, 1), (3, 4), (2, 2)])
        self.assertEqual((bench.times, bench.journal, bench.cost()), ({1: 1}, ["time 1 1"], 7))

    def test_nonsense(self) -> None:
        nonsense: List[Answer] = [b"", b"ok", b"cost x\n", b"cost 1\ncost", b"infeasible\n", 99]
        for answer in nonsense:
            bench = self.opened({b"violations": partial(same, answer)})
            self.assertRaises(BadReply, bench.violations)
            bench.add_event(1)
            self.assertEqual((bench.network.events, self.counts()), ([1], (2, 1)))

    def test_long_replies(self) -> None:
        """A reply that is longer than the room is requested once more, and then there is room."""
        reply = b"violations 90000\n" + b"activity 1\n" * 90_000
        bench = self.opened({b"violations": lambda: reply})
        self.assertEqual([len(bench.violations()) for _ in range(3)], [90_000] * 3)
        self.assertEqual(self.library.lines.count(b"violations"), 4)

    def test_closed_once(self) -> None:
        bench = self.opened()
        bench.close()
        bench.close()
        self.assertEqual(self.counts(), (1, 1))
        self.assertRaises(ValueError, bench.cost)
        self.assertRaises(ValueError, bench.time, 1, 1)
        self.assertRaises(ValueError, bench.moves, [(1, 1)])
        bench = self.opened()
        self.assertEqual(self.counts(), (1, 0))
        del bench
        gc.collect()
        self.assertEqual(self.counts(), (1, 1), "one that nobody closes goes with its object")

    def searching(self) -> "tuple[Bench, threading.Event, threading.Event]":
        """A bench whose optimum and whose second `try` do not end until they are told to; and whether they were asked."""
        asked, may_end = threading.Event(), threading.Event()
        self.addCleanup(may_end.set)

        def search() -> Answer:
            asked.set()
            may_end.wait(LONG)
            return b"infeasible\n"

        quick = {b"try 1000": b"stopped none\n", b"violations": b"violations 0\n"}
        bench = self.opened({b"optimum": search, b"try 2000": search, **{line: partial(same, reply) for line, reply in quick.items()}})
        self.addCleanup(bench.close)
        bench.many(["add event 1", "time 1 3"])
        return bench, asked, may_end

    def when(self, asked: threading.Event, do: Callable[[], object]) -> None:
        """Does something as soon as the search has started, in another thread."""

        def wait() -> None:
            asked.wait(LONG)
            do()

        threading.Thread(target=wait, daemon=True).start()

    def goes_on(self, bench: Bench, may_end: threading.Event) -> None:
        """The bench answers in another session; that of the search is closed as soon as it has ended."""
        bench.fix(1, 2)
        self.assertEqual((bench.network.windows, bench.times, self.counts()), ({1: Window(2)}, {1: 3}, (2, 0)))
        self.assertEqual(list(self.library.lines)[-3:], [b"add event 1", b"time 1 3", b"fix 1 2"])
        may_end.set()
        self.wait_until(lambda: self.counts() == (2, 1), "the session of the search is closed")
        self.assertEqual(bench.cost(), 7)

    def test_deadline(self) -> None:
        bench, _, may_end = self.searching()
        began = time.monotonic()
        self.assertEqual(bench.search(2).found(), Stopped(7, {1: 3}))
        self.assertLess(time.monotonic() - began, SOON)
        self.goes_on(bench, may_end)

    def test_interrupt(self) -> None:
        bench, asked, may_end = self.searching()
        self.when(asked, lambda: signal.pthread_kill(threading.main_thread().ident or 0, signal.SIGINT))
        self.assertRaises(KeyboardInterrupt, bench.optimum)
        self.goes_on(bench, may_end)

    def test_ended_by_another_thread(self) -> None:
        bench, asked, may_end = self.searching()
        self.when(asked, bench._session.end)
        with self.assertRaises(Ended) as told:
            bench.optimum()
        self.assertEqual(told.exception.status, -9)
        self.goes_on(bench, may_end)

    def test_closed_while_it_searches(self) -> None:
        """From another thread: the waiting caller waits for the answer, and the session is closed after it, once."""
        bench, asked, may_end = self.searching()

        def close() -> None:
            bench.close()
            self.assertEqual(self.counts(), (1, 0))
            may_end.set()

        self.when(asked, close)
        bench.optimum()
        self.wait_until(lambda: self.counts() == (1, 1), "the session is closed")
        self.assertRaises(ValueError, bench.cost)

    def test_interrupt_in_a_move(self) -> None:
        """If it comes between the library's answer and its record, nothing was accepted."""
        interrupts = iter([True, True])

        def broken_off() -> Answer:
            if next(interrupts, False):
                raise KeyboardInterrupt
            return b"ok\n"

        bench = self.opened({b"time 1 4": broken_off})
        bench.many(["add event 1", "time 1 3"])
        moves: List[Callable[[], object]] = [lambda: bench.time(1, 4), lambda: bench.moves([(1, 4)])]
        for move in moves:
            self.assertRaises(KeyboardInterrupt, move)
            self.assertEqual((bench.times, bench.journal), ({1: 3}, ["add event 1", "time 1 3"]))
            bench.dump()
            self.assertEqual(list(self.library.lines)[-3:], [b"add event 1", b"time 1 3", b"dump"])
        bench.time(1, 4)
        self.assertEqual(bench.times, {1: 4})

    def test_room_of_the_journal(self) -> None:
        """A move takes about a hundred bytes of the journal, and none if none is kept."""
        moves = [(1_000 + move % 500, move % 10) for move in range(20_000)]
        wanted: List[Tuple[Union[int, str], int, int]] = [("all", 50, 160), ("none", 0, 8), (100, 0, 8)]
        for journal, least, most in wanted:
            bench = self.opened(journal=journal)
            self.library.lines = deque(maxlen=10)
            bench.moves(moves[:500])
            tracemalloc.start()
            bench.moves(moves)
            for event, at in moves:
                bench.time(event, at)
            gc.collect()
            taken = tracemalloc.get_traced_memory()[0] / 2 / len(moves)
            tracemalloc.stop()
            self.assertTrue(least <= taken <= most, f"{journal}: {taken} bytes a move")


if __name__ == "__main__":
    unittest.main()
