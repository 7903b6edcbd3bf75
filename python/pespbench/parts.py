"""The optimum in parts: spans are split into ranges, and each choice of ranges is a smaller search."""

from __future__ import annotations

import itertools
import os
from concurrent.futures import Executor
from dataclasses import dataclass
from typing import Iterator, List, Optional, Tuple, Union

from pespbench.answers import Infeasible, Optimum, Stopped
from pespbench.client import Bench
from pespbench.faults import BadReply
from pespbench.network import Activity, Network
from pespbench.variants import Base, Task, answer_task, at_work, hands_of
from pespbench.watching import Watch
from pespbench.workers import Bar, Driver, Lost


@dataclass(frozen=True)
class Part:
    """A choice of one range of each split span; `constant` is a lower bound of the cost of its timetables."""

    constant: int
    edits: Tuple[str, ...]


def cut_activities(network: Network, spans: int) -> List[Activity]:
    """The activities whose spans are split: of those with 2 to a period of values, the ones with the greatest cost at stake."""
    period = network.period

    def stake(each: Activity) -> Tuple[int, int]:
        return -each.weight * (each.upper - each.lower), each.number

    fit = [each for each in network.activities.values() if each.from_event != each.to_event and 1 <= each.upper - each.lower < period]
    return sorted(fit, key=stake)[:spans]


def ranges_of(activity: Activity, ranges: int) -> List[Tuple[int, int]]:
    """Ranges that partition a span, ascending, of lengths as equal as possible."""
    length = activity.upper - activity.lower + 1
    count = min(ranges, length)
    starts = [activity.lower + length * place // count for place in range(count + 1)]
    return [(first, after - 1) for first, after in zip(starts, starts[1:])]


def parts_of(network: Network, spans: int, ranges: int) -> List[Part]:
    """The choices, ascending by constant. Each timetable that meets everything is in exactly one."""
    activities = cut_activities(network, spans)
    parts = []
    for chosen in itertools.product(*(ranges_of(each, ranges) for each in activities)):
        pairs = list(zip(activities, chosen))
        constant = sum(each.weight * (first - each.lower) for each, (first, _) in pairs)
        parts.append(Part(constant, tuple(f"span {each.number} {first} {last}" for each, (first, last) in pairs)))
    return sorted(parts, key=lambda part: part.constant)


def optimum_in_parts(
    bench: Bench,
    *,
    spans: int = 2,
    ranges: int = 3,
    executor: Optional[Executor] = None,
    workers: Optional[int] = None,
    progress: Optional[bool] = None,
    watch: Optional[Watch] = None,
) -> Union[Optimum, Infeasible]:
    """The same optimum as `bench.optimum()`, found in up to `ranges` to the power of `spans` parallel searches.

    The slack of a range counts from its own lower bound, so a part's cost lacks its constant. A part whose constant alone is
    above the best known cost is not started: it has no timetable as cheap. One whose constant equals that cost may have an
    earlier one, so it is searched too. The working timetable is known from the start if it meets everything. `executor`,
    `workers` and `progress` are as in `variants`, except that an executor gets one part for each processor of this machine if
    `workers` is None. A `watch` receives the state of the search, instead of the bar, and so has the best timetable if anything
    is raised. Raises Lost if the processes of a part died twice, BadReply, and ValueError for spans, ranges or workers below 1.
    """
    if spans < 1 or ranges < 1:
        raise ValueError("there is at least one span, and one range of it")
    parts = parts_of(bench.network, spans, ranges)
    bar = Bar(len(parts), progress if watch is None else False)
    base = Base.of(bench)
    search = Search(parts, base, bar, Watch() if watch is None else watch)
    search.begin(bench.standing())
    hands = hands_of(executor, workers, os.cpu_count() or 1)
    with at_work(hands, base):
        for place, answer in Driver(answer_task, hands).run(search.tasks()):
            search.take(place, answer)
    return Infeasible() if search.best is None else search.best


class Search:
    """The parts, and the first of the cheapest timetables so far."""

    def __init__(self, parts: List[Part], base: Base, bar: Bar, watch: Watch) -> None:
        self._parts = parts
        self._base = base
        self._bar = bar
        self._watch = watch
        # The places of parts that are not answered yet.
        self._left = set(range(len(parts)))
        self.best: Optional[Optimum] = None

    def begin(self, standing: Stopped) -> None:
        """Adds a known timetable."""
        if standing.cost is not None:
            self._found(Optimum(standing.cost, standing.times))
        self._tell_bound()

    def tasks(self) -> Iterator[Task]:
        """The parts as tasks, while one may have a timetable as cheap as the best."""
        for part in self._parts:
            if self.best is not None and part.constant > self.best.cost:
                return
            yield Task(self._base, part.edits, "optimum")

    def take(self, place: int, answer: object) -> None:
        """Records the answer of a part. Raises Lost and BadReply."""
        self._bar.step()
        self._left.discard(place)
        self._watch.take_parts(len(self._parts) - len(self._left), len(self._parts))
        if isinstance(answer, Lost):
            raise answer
        if not isinstance(answer, (Optimum, Infeasible)):
            raise BadReply(str(answer))
        if isinstance(answer, Optimum):
            self._found(Optimum(answer.cost + self._parts[place].constant, answer.times))
        self._tell_bound()

    def _found(self, found: Optimum) -> None:
        if self.best is None or order_of(found) < order_of(self.best):
            self.best = found
            self._watch.take(Stopped(found.cost, found.times))

    def _tell_bound(self) -> None:
        """No timetable is cheaper than the best one, nor than the constant of a part that is not answered."""
        costs = [self._parts[place].constant for place in self._left] + ([self.best.cost] if self.best else [])
        if costs:
            self._watch.take_bound(min(costs))


def order_of(found: Optimum) -> Tuple[int, List[int]]:
    """By cost, and then by the time of the first event, of the next, ..; the order of optima."""
    return found.cost, [found.times[event] for event in sorted(found.times)]
