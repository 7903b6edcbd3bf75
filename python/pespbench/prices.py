"""A profile: the price of each residue of an event, or of each tension of an activity."""

from __future__ import annotations

import time as clock
from typing import TYPE_CHECKING, Callable, Dict, Iterator, List, Mapping, Optional, Set

from pespbench.commands import MOST_NODES
from pespbench.price import Price, Question, cuts, price_of
from pespbench.searching import MOST_SECONDS, check_limits
from pespbench.transport import OutOfTime, Reached

if TYPE_CHECKING:
    from pespbench.questions import Questions

# An undecided value gets this many times the nodes in the next round, so at most a third of all work is repeated.
GROWTH = 4
# The nodes of the first search by a call, often enough for the least cost; each further one has twice as many.
FEW_NODES = 10
# A callback that receives each Price.
Watcher = Callable[[Price], object]


def steps_to(nodes: int) -> List[int]:
    """The nodes of each search of a turn, doubled up to this number."""
    steps = [FEW_NODES]
    while 2 * steps[-1] < nodes:
        steps.append(2 * steps[-1])
    return [*steps, nodes] if steps[-1] < nodes else [nodes]


class Prices:
    """Runs while it is iterated over, and yields a Price whenever more is known about a value; `known` has the last of each.

    First come the values that the domains exclude, which need no search. Each other value has a turn, nearest to the present one
    first; an undecided one has a longer turn in the next round, cheapest first. A turn leaves network, working timetable and
    journal unchanged, whatever ends it: so iteration can stop and resume, and `extend` gives it more time. A turn is a trial, an
    edit with a search; a library with `pesp_price` needs no edit.
    """

    def __init__(
        self, bench: "Questions", question: Question, seconds: float, nodes: int, within: Optional[int], watch: Optional[Watcher]
    ) -> None:
        """Prices with this many nodes in each turn of the first round, of interest up to a cost if one is given."""
        self._bench, self._question, self._within, self._watch = bench, question, within, watch
        # The nodes of the searches of a turn by calls; a turn by lines has one search, with the last of these.
        self._steps = steps_to(nodes)
        self._network = bench.network.copy()
        self._seconds, self._until = seconds, clock.monotonic() + seconds
        # A turn is started if more time is left than the longest of the last round took.
        self._longest, self._wanted = 0.0, 0.0
        self.known: Dict[int, Price] = {}
        # The prices that need no search and are not yet reported, the values with a turn in this round, and the edits for the cap.
        self._ready: Optional[List[Price]] = None
        self._turns: List[int] = []
        self._cuts: List[str] = []

    def __iter__(self) -> Iterator[Price]:
        return self

    def __next__(self) -> Price:
        """The next price. Raises ValueError if the network has changed, Ended and BadReply."""
        if self._bench.network != self._network:
            raise ValueError("the network is another one than when its prices were asked")
        with self._bench._session.waiting(self._seconds):
            if self._ready is None:
                self._ready = self._prepared()
            if self._ready:
                return self._told(self._ready.pop(0))
            while not self.is_ended and self._until - clock.monotonic() > self._wanted:
                price = self._next_turn()
                if price is not None and price != self.known.get(price.value):
                    return self._told(price)
        raise StopIteration

    def found(self) -> Dict[int, Price]:
        """All prices at the end, ascending by value. Raises what a turn raises."""
        for _ in self:
            pass
        return {value: self.known[value] for value in sorted(self.known)}

    def extend(self, seconds: float) -> None:
        """Allows this many more seconds from now on. Raises ValueError for seconds outside 0 to 1,000,000."""
        check_limits(seconds, 1)
        self._seconds, self._until, self._wanted = seconds, clock.monotonic() + seconds, 0.0

    @property
    def is_ended(self) -> bool:
        """Whether all requested prices are known."""
        return self._ready == [] and not any(self._is_open(value) for value in self._question.values(self._network))

    @property
    def cheapest(self) -> List[Price]:
        """The prices with a known timetable, cheapest first."""
        return sorted((each for each in self.known.values() if each.cost is not None), key=lambda each: (each.rank(), each.value))

    def timetable(self, value: int) -> Mapping[int, int]:
        """The timetable of a value's known cost; it is searched for if the engine returned only the cost.

        Raises ValueError if none is known, or the network has changed, and what a search raises.
        """
        price = self.known.get(value)
        if price is None or price.cost is None:
            raise ValueError(f"no timetable is known with {value}")
        if self._bench.network != self._network:
            raise ValueError("the network is another one than when its prices were asked")
        nodes, until = self._steps[-1], clock.monotonic() + MOST_SECONDS
        while not price.times:
            found = price_of(value, self._by_lines(value, [], nodes, until), self._question.constant(value))
            nodes = min(GROWTH * nodes, MOST_NODES)
            if found.times and found.rank() <= price.rank():
                price = self.known[value] = found
        return price.times

    def _is_open(self, value: int) -> bool:
        price = self.known.get(value)
        return price is None or not (price.is_proved or price.is_above(self._within))

    def _prepared(self) -> List[Price]:
        """The prices that need no search: values that the domains exclude, also with the cap, and the working timetable."""
        bench, question, network = self._bench, self._question, self._network
        possible, standing, times = question.possible(bench), bench.standing(), bench.times
        cheap = self._cheap(possible)
        present = question.present(network, times)
        start = question.values(network)[0] if present is None else present
        values = sorted(question.values(network), key=lambda value: (question.distance(value, start, network), value))
        ready = [Price(value, is_proved=True) for value in values if value not in possible]
        if self._within is not None:
            ready += [Price(value, lower_bound=self._within + 1) for value in values if value in possible and value not in cheap]
        if standing.cost is not None and present is not None:
            ready.append(Price(present, standing.cost, times=standing.times).joined(next((each for each in ready if each.value == present), None)))
        self._turns = [value for value in values if value in cheap]
        return ready

    def _cheap(self, possible: Set[int]) -> Set[int]:
        """Those of the possible values that the domains admit with the cap."""
        if self._within is None:
            return possible
        self._cuts = cuts(self._network, self._within)
        with self._bench.trial():
            self._bench._all(self._cuts)
            left = possible & self._question.possible(self._bench)
        return {value for value in left if self._question.constant(value) <= self._within}

    def _next_turn(self) -> Optional[Price]:
        """The price after the next turn, or None if its time was over or nothing remained to be searched."""
        if not self._turns:
            self._begin_round()
        value = self._turns[0]
        began = clock.monotonic()
        try:
            price = self._asked(value) if self._is_open(value) else None
        except OutOfTime:
            self._until = clock.monotonic()
            return None
        self._turns.pop(0)
        self._longest = max(self._longest, clock.monotonic() - began)
        return None if price is None else price.joined(self.known.get(value))

    def _begin_round(self) -> None:
        """Gives another turn to all undecided values, cheapest first."""
        left = [value for value in self._question.values(self._network) if self._is_open(value)]
        known = self.known
        self._turns = sorted(left, key=lambda value: known[value].rank() if value in known else float("inf"))
        self._steps = [min(GROWTH * self._steps[-1], MOST_NODES)]
        self._wanted, self._longest = self._longest, 0.0

    def _asked(self, value: int) -> Price:
        """The result of a turn."""
        constant = self._question.constant(value)
        for nodes in self._steps:
            reached = self._by_call(value % self._network.period, nodes)
            if reached is None:
                return price_of(value, self._by_lines(value, self._cuts, self._steps[-1], self._until), constant, self._within)
            price = price_of(value, reached, constant)
            if price.is_proved:
                break
        return price

    def _by_call(self, residue: int, nodes: int) -> Optional[Reached]:
        """The result of a search with a residue, if the engine has a call for it. Raises OutOfTime."""
        question, until = self._question, self._until
        return self._bench._session.by_call(lambda transport: question.price(transport, residue, nodes, until))

    def _by_lines(self, value: int, edits: List[str], nodes: int, until: float) -> Reached:
        """The result of a search with edits and a value. Raises OutOfTime."""
        with self._bench.trial():
            self._bench._all([*edits, self._question.line(value)])
            return self._bench._session.searched(nodes, until)

    def _told(self, price: Price) -> Price:
        self.known[price.value] = price
        if self._watch is not None:
            self._watch(price)
        return price
