"""All prices of a network: a profile of each event, on many processors."""

from __future__ import annotations

from concurrent.futures import Executor
from dataclasses import dataclass, replace
from typing import Callable, Dict, Iterable, Optional, Union

from pespbench.client import Bench
from pespbench.faults import WrongWords
from pespbench.price import Price
from pespbench.searching import check_limits
from pespbench.variants import AT_ONCE, Base, at_work, hands_of, in_hand
from pespbench.workers import Bar, Driver, Lost

# The prices of an event by residue, ascending.
Profile = Dict[int, Price]
# A callback that receives each event and its prices.
Watcher = Callable[[int, Profile], object]


@dataclass(frozen=True)
class Task:
    """The prices of an event of a base, with the limits of `Bench.prices`."""

    base: Base
    event: int
    seconds: float
    nodes: int
    within: Optional[int]


def answer_prices(task: Task) -> Profile:
    """The prices without their timetables. Raises Ended, also if all work has ended, and BadReply."""
    with in_hand(task.base, 1) as bench:
        prices = bench.prices(event=task.event, seconds=task.seconds, nodes=task.nodes, within=task.within)
        return {value: replace(price, times={}) for value, price in prices.found().items()}


def all_prices(
    bench: Bench,
    events: Optional[Iterable[int]] = None,
    *,
    seconds: float = 60.0,
    nodes: int = 1_000,
    within: Optional[int] = None,
    executor: Optional[Executor] = None,
    workers: Optional[int] = None,
    progress: Optional[bool] = None,
    watch: Optional[Watcher] = None,
) -> Dict[int, Union[Profile, Lost]]:
    """What `bench.prices` finds of each event, or of some, ascending by event; at most `seconds` are spent on each.

    The prices have no timetables, which would take as much memory as the network for each residue of each event. `executor`,
    `workers` and `progress` are as in `variants`, and an event is Lost as a variant is. `watch` is called with each event and its
    prices as they come, so it has them if anything is raised. The bench does not change. Raises WrongWords for an unknown event,
    ValueError for limits as in `prices` and for workers below 1, and BadReply.
    """
    check_limits(seconds, nodes)
    asked = bench.network.events if events is None else sorted(set(events))
    unknown = [event for event in asked if event not in bench.network.windows]
    if unknown or within is not None and within < 0:
        raise WrongWords(f"there is no event {unknown[0]}" if unknown else "no timetable costs less than 0")
    shared, bar, hands = Base.of(bench), Bar(len(asked), progress), hands_of(executor, workers, AT_ONCE)
    came: Dict[int, Union[Profile, Lost]] = {}
    with at_work(hands, shared):
        for place, answer in Driver(answer_prices, hands).run(Task(shared, event, seconds, nodes, within) for event in asked):
            came[asked[place]] = answer
            bar.step()
            if watch is not None and not isinstance(answer, Lost):
                watch(asked[place], answer)
    return {event: came[event] for event in asked}
