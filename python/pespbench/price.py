"""What a minute costs: an event at each residue, or an activity at each of its tensions."""

from __future__ import annotations

from dataclasses import dataclass, field
from typing import TYPE_CHECKING, List, Mapping, Optional, Set, Union

from pespbench.answers import Infeasible
from pespbench.network import Activity, Network
from pespbench.transport import Reached, Transport

if TYPE_CHECKING:
    from pespbench.questions import Questions


@dataclass(frozen=True)
class Price:
    """What the best timetable costs with an event at the residue `value`, or with an activity at the tension `value`.

    `cost` is that of the best timetable known with it, or None; no such timetable costs less than `lower_bound`, which is None
    if no bound is known. If `is_proved`, `cost` is the least, or None because there is no such timetable. `times` is empty where
    the engine returned the cost alone; `Prices.timetable` searches for them.
    """

    value: int
    cost: Optional[int] = None
    lower_bound: Optional[int] = None
    is_proved: bool = False
    times: Mapping[int, int] = field(default_factory=dict, compare=False, repr=False)

    @property
    def is_impossible(self) -> bool:
        """Whether no timetable has this value."""
        return self.is_proved and self.cost is None

    def is_above(self, cap: Optional[int]) -> bool:
        """Whether it is known to cost more than a cap."""
        return cap is not None and self.lower_bound is not None and self.lower_bound > cap

    def rank(self) -> float:
        """What it costs at least, as far as is known, for sorting."""
        known = self.lower_bound if self.cost is None else self.cost
        return float("inf") if known is None else known

    def joined(self, before: Optional["Price"]) -> "Price":
        """This joined with an earlier price: the cheaper timetable and the better bound."""
        if before is None or self.is_proved:
            return self
        best = before if self.cost is None or before.cost is not None and before.cost <= self.cost else self
        bounds = [each.lower_bound for each in (self, before) if each.lower_bound is not None]
        return Price(self.value, best.cost, max(bounds, default=None), False, best.times)


def price_of(value: int, reached: Reached, constant: int, cap: Optional[int] = None) -> Price:
    """The price for the result of a search whose costs lack a constant; with a cap, it searched for nothing that costs more."""
    found, bound = reached.found, reached.lower_bound
    cost = None if found.cost is None else found.cost + constant
    bound = cost if found.is_proved else None if bound is None else bound + constant
    # The least cost is often known before the first timetable of that cost.
    is_least = cost is not None and cost == bound
    if cap is None:
        return Price(value, cost, bound, found.is_proved or is_least, found.times)
    # Above the cap there may be cheaper ones than it found.
    bound = cap + 1 if isinstance(found, Infeasible) else None if bound is None else min(bound, cap + 1)
    return Price(value, cost, bound, cost is not None and cost == bound, found.times)


def cuts(network: Network, cap: int) -> List[str]:
    """The commands that remove from the spans the minutes that alone cost more than a cap."""
    shorter = [(each, cap // each.weight) for each in network.activities.values() if each.weight]
    return [
        f"span {each.number} {each.lower} {each.lower + slack}" for each, slack in shorter
        if slack < min(each.upper - each.lower, network.period - 1)
    ]  # fmt: skip


@dataclass(frozen=True)
class OfEvent:
    """An event at each residue."""

    event: int

    def values(self, network: Network) -> range:
        """The residues."""
        return range(network.period)

    def line(self, value: int) -> str:
        """The command that requires a residue."""
        return f"fix {self.event} {value}"

    def price(self, transport: Transport, residue: int, nodes: int, until: float) -> Optional[Reached]:
        """The result of a search with a residue, if the engine has a call for it."""
        return transport.priced(self.event, residue, nodes, until)

    def constant(self, value: int) -> int:
        """The cost that the line or the call leaves out."""
        return 0

    def possible(self, bench: "Questions") -> Set[int]:
        """The residues in its domain."""
        return set(bench.domain(self.event))

    def present(self, network: Network, times: Mapping[int, int]) -> Optional[int]:
        """Its time, or None."""
        return times.get(self.event)

    def distance(self, value: int, other: int, network: Network) -> int:
        """The minutes between two residues, round the period."""
        return min((value - other) % network.period, (other - value) % network.period)


@dataclass(frozen=True)
class OfActivity:
    """An activity at each tension, within one period."""

    activity: Activity

    def values(self, network: Network) -> range:
        """The tensions that its span admits, one for each residue."""
        lower = self.activity.lower
        return range(lower, min(self.activity.upper, lower + network.period - 1) + 1)

    def line(self, value: int) -> str:
        """The command that requires a tension."""
        return f"span {self.activity.number} {value} {value}"

    def price(self, transport: Transport, residue: int, nodes: int, until: float) -> Optional[Reached]:
        """The result of a search with a tension, up to whole periods, if the engine has a call for it."""
        return transport.priced_tension(self.activity.number, residue, nodes, until)

    def constant(self, value: int) -> int:
        """The cost that the line or the call leaves out, since minutes up to the new lower bound cost nothing."""
        return self.activity.weight * (value - self.activity.lower)

    def possible(self, bench: "Questions") -> Set[int]:
        """The tensions between the domains of its ends."""
        starts, ends = (set(bench.domain(event)) for event in (self.activity.from_event, self.activity.to_event))
        gaps = {(end - start) % bench.period for start in starts for end in ends}
        return {value for value in self.values(bench.network) if value % bench.period in gaps}

    def present(self, network: Network, times: Mapping[int, int]) -> Optional[int]:
        """Its tension, or None."""
        is_timed = self.activity.from_event in times and self.activity.to_event in times
        return self.activity.lower + self.activity.slack(network.period, times) if is_timed else None

    def distance(self, value: int, other: int, network: Network) -> int:
        """The minutes between two tensions."""
        return abs(value - other)


Question = Union[OfEvent, OfActivity]
