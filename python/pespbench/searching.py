"""A search for the best timetable, step by step, with its state after each."""

from __future__ import annotations

import time as clock
from dataclasses import replace
from typing import Callable, Iterator, Optional

from pespbench.answers import Found, Optimum, Stopped
from pespbench.commands import MOST_NODES
from pespbench.pacing import Pace
from pespbench.progress import Progress
from pespbench.session import Session
from pespbench.transport import OutOfTime, Reached

MOST_SECONDS = 1_000_000
SECONDS_TEXT = f"a search takes from 0 to {MOST_SECONDS:,} seconds"
# A callback that receives each Progress.
Watcher = Callable[[Progress], object]


def check_limits(seconds: float, nodes: int) -> None:
    """Raises ValueError for limits out of range."""
    if not 0 <= seconds <= MOST_SECONDS:
        raise ValueError(SECONDS_TEXT)
    if not 1 <= nodes <= MOST_NODES:
        raise ValueError(f"a search takes from 1 to {MOST_NODES:,} nodes")


class Search:
    """Runs while it is iterated over, and yields its Progress after each step; `progress` is the last one.

    The time is checked between steps, and also passes there. With a library that has the call for searches, a step resumes the
    previous one, even of another search of the same session, unless the engine was reopened or the network changed; changed
    times do not matter. Such a step takes about a quarter of a second, and is completed even if the time ends during it.

    With the program, and if the library cannot resume, as with too many cycles, a step restarts with twice the nodes of the
    previous one: so at most as much as all earlier work is repeated. A step starts if more time is left than the last one took,
    and is abandoned when the time is over, by the library a second later.
    """

    def __init__(self, session: Session, standing: Stopped, seconds: float, nodes: int, watch: Optional[Watcher]) -> None:
        """A search with the given nodes in its first step, starting with a known timetable, or none."""
        self._session, self._pace, self._watch = session, Pace(nodes), watch
        self._network = session.work.network.copy()
        self._began = clock.monotonic()
        self._until = self._began + seconds
        self.progress = Progress(standing, None, False, 0.0)
        self._rest = self._steps()

    def __iter__(self) -> Iterator[Progress]:
        return self

    def __next__(self) -> Progress:
        """The result of the next step. Raises ValueError if the network has changed, Ended and BadReply."""
        return next(self._rest)

    def _repr_html_(self) -> str:
        from pespbench.showing import search_html

        return search_html(self.progress)

    def found(self) -> Found:
        """The result of the search at its end. Raises what a step raises."""
        for _ in self:
            pass
        return self.progress.found

    def _steps(self) -> Iterator[Progress]:
        if self.progress.cost is not None:
            yield self._told(Reached(Stopped()))
        while not self.progress.is_ended and self._has_room():
            began = clock.monotonic()
            reached = self._step()
            self._pace.follow(clock.monotonic() - began, reached.goes_on)
            yield self._told(reached)
        if not self.progress.is_ended:
            yield self._told(Reached(Stopped()))

    def _has_room(self) -> bool:
        return self._pace.has_room(self._until - clock.monotonic())

    def _step(self) -> Reached:
        if self._session.work.network != self._network:
            raise ValueError("the network is another one than when the search began")
        try:
            return self._session.searched(self._pace.nodes, self._until)
        except OutOfTime:
            return Reached(Stopped())

    def _told(self, reached: Reached) -> Progress:
        """Reports the result of a step, joined with earlier ones: the cost never rises, and the bound never falls."""
        before, found, bounds = self.progress, reached.found, [self.progress.lower_bound, reached.lower_bound]
        if isinstance(found, Stopped) and not found.is_below(before.cost):
            found = before.found
        if isinstance(found, Optimum):
            bounds.append(found.cost)
        bound = max((each for each in bounds if each is not None), default=None)
        if isinstance(found, Stopped):
            found = replace(found, lower_bound=bound)
        is_ended = found.is_proved or not self._has_room()
        self.progress = Progress(found, bound, is_ended, clock.monotonic() - self._began)
        if self._watch is not None:
            self._watch(self.progress)
        return self.progress
