"""Work for many processes: each task is answered once, in its place, even if processes die."""

from __future__ import annotations

import multiprocessing
import os
import signal
import sys
import threading
import time
from concurrent.futures import Executor, Future, ProcessPoolExecutor
from concurrent.futures.process import BrokenProcessPool
from multiprocessing.connection import wait
from queue import Empty, SimpleQueue
from typing import Any, Callable, Dict, Generic, Iterable, Iterator, List, Optional, Tuple, TypeVar, Union

from pespbench import ending
from pespbench.faults import Ended, PespbenchError
from pespbench.process import kill_all
from pespbench.transport import OutOfTime

Task = TypeVar("Task")
Result = TypeVar("Result")
# How often a task is assigned: once, and once more if its worker died.
TURNS = 2


class Lost(PespbenchError):
    """Both workers of a task died. `task` is the place of the task, from 0, and `text` gives the cause."""

    def __init__(self, task: int, text: str) -> None:
        super().__init__(task, text)
        self.task = task
        self.text = text

    def __str__(self) -> str:
        return f"task {self.task} is lost: {self.text}"


class Hands:
    """Where tasks are assigned: as many places as tasks that may run at once."""

    def free(self) -> Optional[Executor]:
        """A free place, which is then in use, or None."""
        raise NotImplementedError

    def done(self, place: Executor, is_broken: bool) -> None:
        """Frees a place; a broken one receives no more tasks."""
        raise NotImplementedError

    def close(self) -> None:
        """Ends what was started here."""


class OwnHands(Hands):
    """Processes of this machine. Each is a pool of its own, so that one that dies loses only its own task."""

    def __init__(self, workers: Optional[int]) -> None:
        self._idle: List[Executor] = []
        self._all: List[Executor] = []
        for _ in range(workers or os.cpu_count() or 1):
            self._start()

    def _start(self) -> None:
        # A forked process would hold the pipes of this one's programs open.
        pool = ProcessPoolExecutor(1, mp_context=multiprocessing.get_context("forkserver"), initializer=begin)
        self._all.append(pool)
        self._idle.append(pool)

    def free(self) -> Optional[Executor]:
        return self._idle.pop() if self._idle else None

    def done(self, place: Executor, is_broken: bool) -> None:
        if is_broken:
            place.shutdown()
            self._all.remove(place)
            self._start()
        else:
            self._idle.append(place)

    def close(self) -> None:
        for pool in self._all:
            # Otherwise a worker that still searches would be waited for; the module has no call for that before Python 3.14.
            for process in list((getattr(pool, "_processes", None) or {}).values()):
                process.terminate()
            pool.shutdown()


def begin() -> None:
    """The start of a worker: it leaves Ctrl-C to its client, and ends with its programs when that requests it or ends."""
    signal.signal(signal.SIGINT, signal.SIG_IGN)
    for number in ending.SIGNALS:
        signal.signal(number, lambda *_: end())
    client = multiprocessing.parent_process()
    if client is not None:
        threading.Thread(target=end_with, args=(client.sentinel,), daemon=True).start()


def end_with(sentinel: int) -> None:
    """Ends this worker as soon as its client has ended."""
    wait([sentinel])
    end()


def end() -> None:
    """Ends this worker at once."""
    kill_all()
    os._exit(1)


class LentHands(Hands):
    """The caller's executor, which receives this many tasks at once, and is not shut down."""

    def __init__(self, executor: Executor, at_once: int) -> None:
        self._executor = executor
        self._left = at_once

    def free(self) -> Optional[Executor]:
        if not self._left:
            return None
        self._left -= 1
        return self._executor

    def done(self, place: Executor, is_broken: bool) -> None:
        self._left += 1


class Driver(Generic[Task, Result]):
    """Assigns tasks, and collects their results."""

    def __init__(self, call: Callable[[Task], Result], hands: Hands) -> None:
        self._call = call
        self._hands = hands
        self._running: Dict["Future[Result]", Tuple[int, Task, int, Executor]] = {}
        self._done: "SimpleQueue[Future[Result]]" = SimpleQueue()
        self._again: List[Tuple[int, Task, int]] = []

    def run(self, tasks: Iterable[Task], deadline: Optional[float] = None) -> Iterator[Tuple[int, Union[Result, Lost]]]:
        """Each task's place and result, as they arrive. The tasks are taken one by one, when a place is free.

        What `call` raises is raised, except Ended, which means that a program died, and exceptions of a dead worker;
        and OutOfTime at the deadline, one of `time.monotonic`.
        """
        coming = ((place, task, 1) for place, task in enumerate(tasks))
        try:
            while self._give(coming) or self._running:
                yield from self._take(self._next_done(deadline))
        finally:
            for future in list(self._running):
                future.cancel()

    def _next_done(self, deadline: Optional[float]) -> "Future[Result]":
        if deadline is None:
            return self._done.get()
        left = deadline - time.monotonic()
        if left <= 0:
            raise OutOfTime
        try:
            return self._done.get(timeout=left)
        except Empty:
            raise OutOfTime from None

    def _give(self, coming: Iterator[Tuple[int, Task, int]]) -> bool:
        """Assigns tasks while places are free; whether one was assigned."""
        is_given = False
        while True:
            executor = self._hands.free()
            if executor is None:
                return is_given
            order = self._again.pop() if self._again else self._next(coming)
            if order is None:
                self._hands.done(executor, False)
                return is_given
            is_given = True
            place, task, turn = order
            try:
                future = executor.submit(self._call, task)
            except BrokenProcessPool as broken:
                future = Future()
                future.set_exception(broken)
            self._running[future] = (place, task, turn, executor)
            future.add_done_callback(self._done.put)

    @staticmethod
    def _next(coming: Iterator[Tuple[int, Task, int]]) -> Optional[Tuple[int, Task, int]]:
        for order in coming:
            return order
        return None

    def _take(self, future: "Future[Result]") -> Iterator[Tuple[int, Union[Result, Lost]]]:
        """Records the outcome of a task: its result, or the task to repeat, or that it is lost."""
        place, task, turn, executor = self._running.pop(future)
        died = death_of(future)
        self._hands.done(executor, isinstance(died, BrokenProcessPool))
        if died is None:
            yield place, future.result()
        elif turn < TURNS:
            self._again.append((place, task, turn + 1))
        else:
            yield place, Lost(place, str(died) or type(died).__name__)


def death_of(future: "Future[Any]") -> Optional[BaseException]:
    """The text of an exception that means that a worker or its program died, or None. `KilledWorker` is Dask's."""
    raised = future.exception()
    is_death = isinstance(raised, (Ended, BrokenProcessPool)) or type(raised).__name__ == "KilledWorker"
    return raised if is_death else None


class Bar:
    """A bar on standard error, if that is a terminal."""

    WIDTH = 30

    def __init__(self, total: int, is_shown: Optional[bool] = None) -> None:
        self._total = total
        self._done = 0
        self._is_shown = sys.stderr.isatty() if is_shown is None else is_shown
        self._show()

    def step(self) -> None:
        """One more is done."""
        self._done += 1
        self._show()

    def end(self) -> None:
        """Ends the line, after the last task."""
        if self._is_shown and self._done < self._total:
            print(file=sys.stderr, flush=True)

    def _show(self) -> None:
        if self._is_shown:
            full = self.WIDTH * self._done // max(1, self._total)
            end = "\n" if self._done == self._total else ""
            bar = "#" * full + "." * (self.WIDTH - full)
            print(f"\r[{bar}] {self._done} of {self._total}", end=end, file=sys.stderr, flush=True)
