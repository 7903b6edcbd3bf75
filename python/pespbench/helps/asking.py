"""Computes what would help: each span of some kinds, slightly wider, is a variant."""

from __future__ import annotations

import time as clock
from concurrent.futures import Executor
from contextlib import suppress
from dataclasses import replace
from typing import Callable, Collection, Optional

from pespbench.answers import Found, Infeasible, Optimum, Stopped
from pespbench.client import Bench
from pespbench.helps.answers import Helps
from pespbench.helps.questions import questions
from pespbench.methods import found_by
from pespbench.searching import check_limits
from pespbench.transport import OutOfTime
from pespbench.variants import AT_ONCE, Base, Task, answer_task, at_work, hands_of
from pespbench.workers import Driver

# The share of the time that the search of the unchanged network may use; the rest is for the questions.
FIRST_PART = 1 / 3
# A callback that receives the results so far.
Watcher = Callable[[Helps], object]


def helps(
    bench: Bench,
    kinds: Optional[Collection[str]] = None,
    *,
    minutes: int = 1,
    seconds: float = 60.0,
    nodes: int = 100_000,
    executor: Optional[Executor] = None,
    workers: Optional[int] = None,
    watch: Optional[Watcher] = None,
) -> Helps:
    """How much cheaper the best timetable would be if one activity could take `minutes` more, for each activity.

    `kinds` are those that may change, by the bench's labels; by default all except runs, dwells and headways. If `minutes` is
    below 0, minimums are lowered instead. Each is a search of at most `nodes` nodes, and so is that of the current best
    timetable. Those with the greatest cost in the working timetable come first, in parallel: `executor` and `workers` are as in
    `variants`.

    Activities without an answer within `seconds` are left out; the search of the unchanged network uses a third of them at most.
    `watch` is called with the results before the first search and after each, so that it has them also at Ctrl-C, which raises
    KeyboardInterrupt. The bench does not change. Raises WrongWords for an unknown kind; ValueError for no minutes, no nodes, no
    workers, and seconds outside 0 to 1,000,000; and BadReply.
    """
    check_limits(seconds, nodes)
    if not minutes:
        raise ValueError("0 minutes change nothing")
    began, asked, base = clock.monotonic(), questions(bench, kinds, minutes), Base.of(bench)
    hands, answer = hands_of(executor, workers, AT_ONCE), Helps(minutes, Stopped(), len(asked))
    with suppress(OutOfTime), at_work(hands, base):
        answer = replace(answer, before=best_within(bench, nodes, began + FIRST_PART * seconds))
        tell(watch, answer)
        tasks = (Task(base, (question.edit,), f"try {nodes}") for question in asked)
        for place, found in Driver(answer_task, hands).run(tasks, began + seconds):
            if isinstance(found, (Optimum, Infeasible, Stopped)):
                answer = replace(answer, answers=(*answer.answers, asked[place].gain(answer.before, found)))
                tell(watch, answer)
    return answer


def best_within(bench: Bench, nodes: int, until: float) -> Found:
    """The result of a search with this many nodes until a time, or the working timetable if that is cheaper."""
    standing = bench.standing()
    try:
        found = found_by(bench._session.answer(f"try {nodes}", until))
    except OutOfTime:
        return standing
    return standing if isinstance(found, Stopped) and not found.is_below(standing.cost) else found


def tell(watch: Optional[Watcher], answer: Helps) -> None:
    """Passes the results so far to the callback, if there is one."""
    if watch is not None:
        watch(answer)
