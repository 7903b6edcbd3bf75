"""The search for the nearest timetable."""

from __future__ import annotations

import time as clock
from dataclasses import replace
from typing import TYPE_CHECKING, Callable, Iterator, Mapping, Optional, Tuple

from pespbench.answers import Optimum, Stopped, Violations
from pespbench.faults import BadReply
from pespbench.near import Near, Wish, WithMoves
from pespbench.progress import Progress
from pespbench.searching import Search
from pespbench.session import Session
from pespbench.work import Work

if TYPE_CHECKING:
    from pespbench.questions import Questions

# A callback that receives each Near.
Watcher = Callable[[Near], object]


class Nearest:
    """Runs while it is iterated over, and yields a Near after each step; `near` is the last one.

    A session of its own searches the network in which moves cost (WithMoves), with the same engine, and the bench checks each
    timetable in a trial: so nothing of the bench changes, whatever ends it. If costs are too large to count beside moves, half of
    the time is for the moves alone.
    """

    def __init__(self, bench: "Questions", wish: Wish, seconds: float, nodes: int, watch: Optional[Watcher]) -> None:
        """A search for a wish, with the given nodes in its first step. Raises WrongWords for too large a network."""
        self._bench, self._wish, self._nodes, self._watch = bench, wish, nodes, watch
        self._network = bench.network.copy()
        self._seconds, self._until = seconds, clock.monotonic() + seconds
        self.near = Near()
        with_costs = WithMoves(self._network, wish)
        self._asked = [with_costs] if with_costs.is_exact else [WithMoves(self._network, wish, with_costs=False), with_costs]
        # The last timetable of a session, and its value in the bench.
        self._seen: Optional[Mapping[int, int]] = None
        self._checked = Near()
        self._rest = self._steps()

    def __iter__(self) -> Iterator[Near]:
        return self

    def __next__(self) -> Near:
        """The result of the next step. Raises ValueError if the network has changed, Ended and BadReply."""
        if self._bench.network != self._network:
            raise ValueError("the network is another one than when the search began")
        return next(self._rest)

    def found(self) -> Near:
        """The nearest timetable known at the end. Raises what a step raises."""
        for _ in self:
            pass
        return self.near

    def _steps(self) -> Iterator[Near]:
        wish = self._wish
        # An event whose minutes have weight 0 may still have a cheaper time.
        if wish.times.keys() == self._network.windows.keys() and all(map(wish.weight, wish.times)):
            violations, near = self._asked_bench(wish.times)
            if not len(violations):
                self._tell(replace(near, lower_bound=0, is_proved=True))
                yield self.near
                return
        for left, asked in zip(range(len(self._asked), 0, -1), self._asked):
            session = Session(self._bench.engine, Work(asked.network))
            try:
                for progress in Search(session, Stopped(), max(0.0, self._until - clock.monotonic()) / left, self._nodes, None):
                    self._tell(self._known(asked, progress))
                    yield self.near
            finally:
                session.close()
            if self.near.is_proved:
                return

    def _tell(self, near: Near) -> None:
        self.near = near
        if self._watch is not None:
            self._watch(near)

    def _known(self, asked: WithMoves, progress: Progress) -> Near:
        """What is known after a step of a search; earlier knowledge is kept."""
        bounds = [each for each in (self.near.lower_bound, asked.bound(progress.lower_bound)) if each is not None]
        near = replace(self.near, lower_bound=max(bounds, default=None))
        if progress.found.is_proved and progress.times is None:
            return Near(is_proved=True)
        if progress.times is None:
            return near
        if progress.times is not self._seen:
            self._checked, self._seen = self._check(asked.times(progress.times)), progress.times
        checked = replace(self._checked, lower_bound=near.lower_bound)
        is_nearest = asked.with_costs and isinstance(progress.found, Optimum) and checked.minutes == near.lower_bound
        return replace(checked if is_better(checked, near) else near, is_proved=is_nearest)

    def _check(self, times: Mapping[int, int]) -> Near:
        """A timetable that was found. Raises BadReply if it violates something in the bench, or does not answer the question."""
        violations, near = self._asked_bench(times)
        if len(violations) or not self._wish.admits(near.moves):
            raise BadReply(f"a timetable with {violations.text()}")
        return near

    def _asked_bench(self, times: Mapping[int, int]) -> Tuple[Violations, Near]:
        """The violations and the cost of a timetable in the bench."""
        bench, moves = self._bench, self._wish.moves(times, self._network.period)
        with bench._session.waiting(self._seconds), bench.trial():
            bench._all(Work.change_to(bench.times, times))
            return bench.violations(), Near(times, moves, self._wish.minutes(moves), bench.cost())


def is_better(near: Near, other: Near) -> bool:
    """Whether it takes fewer minutes than another, or as many at no higher cost."""
    if near.minutes is None or near.cost is None or other.minutes is None or other.cost is None:
        return other.minutes is None
    return (near.minutes, near.cost) <= (other.minutes, other.cost)
