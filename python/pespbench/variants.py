"""Many variants of one network, evaluated on one machine or on many."""

from __future__ import annotations

import os
import signal
import threading
from concurrent.futures import Executor
from contextlib import contextmanager
from dataclasses import dataclass, field
from typing import Dict, Iterator, List, Optional, Sequence, Tuple, Union

from pespbench.client import Bench
from pespbench.commands import CHANGES, checked, name_of
from pespbench.engines import Engine
from pespbench.faults import Ended, Fault, Refused
from pespbench.session import Outcome, Session
from pespbench.work import work_of
from pespbench.workers import Bar, Driver, Hands, LentHands, Lost, OwnHands

# How many variants the caller's executor receives at once, by default.
AT_ONCE = 1_000


@dataclass(frozen=True)
class Base:
    """A network that can be sent to other processes: the engine that opens it there, and the commands that build it."""

    engine: Engine
    period: int
    script: Tuple[str, ...]
    # Is set as soon as all work must end; only threads of this process, which share this object, see it.
    over: List[bool] = field(default_factory=list, compare=False, repr=False)

    @classmethod
    def of(cls, bench: Bench, program: Union[str, "os.PathLike[str]", None] = None) -> "Base":
        """The network and the times of a bench, for another program if one is named."""
        engine = bench.engine if program is None else Engine("program", os.fspath(program))
        return cls(engine, bench.period, tuple(bench._session.work.script()))


@dataclass(frozen=True)
class Task:
    """One variant: the base, the edits on it, and the command then."""

    base: Base
    edits: Tuple[str, ...]
    question: str


class Opened(threading.local):
    """The program that a worker has opened, with its base; a worker is a thread, of which a process may have many."""

    def __init__(self) -> None:
        self._base: Optional[Base] = None
        self._bench: Optional[Bench] = None

    def bench(self, base: Base) -> Bench:
        """The bench of a base, which is opened if it is not the previous one."""
        if self._bench is None or self._base != base:
            if self._bench is not None:
                self._bench.close()
            self._bench = Bench(Session(base.engine, work_of(list(base.script), base.period)))
            self._base = base
        return self._bench


_opened = Opened()
# The base and the bench in use by each thread of this process.
_in_hand: Dict[int, Tuple[Base, Bench]] = {}


@contextmanager
def in_hand(base: Base, lines: int) -> Iterator[Bench]:
    """The bench of a base in this worker, with room for this many lines. Raises Ended if all work has ended, and BadReply."""
    bench = _opened.bench(base)
    _in_hand[threading.get_ident()] = base, bench
    try:
        # Whoever ends all work either finds this engine to end, or this finds that all work is over: so it is opened before the
        # check.
        bench._session.open(lines)
        if base.over:
            raise Ended(-signal.SIGKILL, "")
        yield bench
    finally:
        del _in_hand[threading.get_ident()]


def answer_task(task: Task) -> Outcome:
    """The answer to a variant, or the first refusal of its edits. Raises Ended, also if all work has ended, and BadReply."""
    with in_hand(task.base, 2 * len(task.edits) + 2) as bench, bench.trial():
        *edits, answer = bench.many([*task.edits, task.question])
    return next((outcome for outcome in edits if isinstance(outcome, (Refused, Fault))), answer)


@contextmanager
def at_work(hands: Hands, base: Base) -> Iterator[None]:
    """Releases hands at the end, however it comes; if something is raised, no thread of this process waits for a search."""
    try:
        yield
    except BaseException:
        base.over.append(True)
        for other, bench in list(_in_hand.values()):
            if other is base:
                bench._session.end()
        raise
    finally:
        hands.close()


def variants(
    base: Bench,
    lists_of_edits: Sequence[Sequence[str]],
    *,
    ask: str = "optimum",
    executor: Optional[Executor] = None,
    workers: Optional[int] = None,
    progress: Optional[bool] = None,
) -> List[Union[Outcome, Lost]]:
    """Applies each list of edits separately to the network of `base`, and returns the answers in the order of the lists.

    `ask` is the command after the edits: `optimum`, `domains`, `try 5000`, .. The tasks go to `executor`, any of
    `concurrent.futures` whose workers have this package and the program or library at the same path, `workers` of them at once
    (1,000 if that is None). Without one, they go to `workers` processes of this machine (by default one for each processor),
    and the caller's main module must be importable (`if __name__ == "__main__":`). Each worker keeps one opened program. A bar
    on standard error shows the progress if that is a terminal, or as `progress` says.

    A refused edit makes Refused or Fault the answer of its list. If a worker or a program dies, its task is repeated once, and
    is Lost, with its place in the lists, if that dies too; a broken process pool of the caller accepts nothing more, so all
    remaining tasks are then Lost. Raises ValueError for a line that is not a change, before anything is sent, or for workers
    below 1, and BadReply.
    """
    lists = [tuple(map(change, edits)) for edits in lists_of_edits]
    shared = Base.of(base)
    tasks = (Task(shared, edits, checked(ask)) for edits in lists)
    answers: List[Union[Outcome, Lost]] = [None] * len(lists)
    bar = Bar(len(lists), progress)
    hands = hands_of(executor, workers, AT_ONCE)
    with at_work(hands, shared):
        for place, answer in Driver(answer_task, hands).run(tasks):
            answers[place] = answer
            bar.step()
    return answers


def hands_of(executor: Optional[Executor], workers: Optional[int], at_once: int) -> Hands:
    """The caller's executor, which receives `workers` tasks at once, or this number of processes of this machine.

    Raises ValueError for workers below 1.
    """
    if workers is not None and workers < 1:
        raise ValueError("there is at least one worker")
    return OwnHands(workers) if executor is None else LentHands(executor, workers or at_once)


def change(command: str) -> str:
    """A command that changes something. Raises ValueError for any other text."""
    if name_of(checked(command)) not in CHANGES and command.split() != ["adopt"]:
        raise ValueError(f"no edit: {command}")
    return command
