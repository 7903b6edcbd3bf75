"""A timetable near to given times: the question, the result, and the network whose optimum it is."""

from __future__ import annotations

from dataclasses import dataclass, field
from operator import index
from typing import Dict, List, Mapping, Optional, Union

from pespbench.faults import WrongWords
from pespbench.files import WEIGHTS
from pespbench.network import Activity, Network, Window

# The limits of the program (docs/FORMATS.md, *Limits*).
MOST_EVENTS, MOST_ACTIVITIES, MOST_PERIOD = 20_000, 100_000, 120
# The greatest move of all events, or of each.
Most = Union[None, int, Mapping[int, int]]


@dataclass(frozen=True)
class Near:
    """A timetable near to given times, as far as a search has found one.

    Attributes:
        times: the time of each event, below the period; empty if none is found.
        moves: the minutes by which events differ from their given times, the shorter way round the period, below 0 if earlier.
        minutes: their sum, each by its weight, or None.
        cost: that of the timetable, or None.
        lower_bound: no timetable takes fewer minutes; None if no bound is known.
        is_proved: whether no timetable takes fewer minutes, and none of as many costs less; or there is none at all.
    """

    times: Mapping[int, int] = field(default_factory=dict)
    moves: Mapping[int, int] = field(default_factory=dict)
    minutes: Optional[int] = None
    cost: Optional[int] = None
    lower_bound: Optional[int] = None
    is_proved: bool = False

    @property
    def greatest(self) -> int:
        """The minutes of the greatest move."""
        return max((abs(move) for move in self.moves.values()), default=0)


@dataclass(frozen=True)
class Wish:
    """Given times, including those of held events, the greatest moves of events, and the weights of their minutes."""

    times: Mapping[int, int]
    held: Mapping[int, int]
    most: Mapping[int, int]
    weights: Mapping[int, int]

    @classmethod
    def of(cls, network: Network, times: Mapping[int, int], held: Mapping[int, int], most: Most, weights: Mapping[int, int]) -> "Wish":
        """A wish about a network. Raises WrongWords for an impossible event, time, move or weight, and TypeError."""
        greatest = most if isinstance(most, Mapping) else {} if most is None else dict.fromkeys(network.windows, most)
        held, weights, greatest = whole(held), whole(weights), whole(greatest)
        wish = cls({**whole(times), **held}, held, greatest, weights)
        unknown = sorted({*wish.times, *greatest, *weights} - network.windows.keys())
        if unknown:
            raise WrongWords(f"there is no event {unknown[0]}")
        if not all(time in range(network.period) for time in wish.times.values()):
            raise WrongWords(f"given times are from 0 to {network.period - 1}")
        if min([*greatest.values(), *weights.values()], default=0) < 0 or max(weights.values(), default=0) not in WEIGHTS:
            raise WrongWords(f"greatest moves and weights are not below 0, and weights at most {WEIGHTS[-1]:,}")
        for event, time in held.items():
            window = network.windows[event]
            if window is not None and not window.holds(network.period, time):
                raise WrongWords(f"event {event} is held at {time}, outside of its window; unfix it first")
        return wish

    def weight(self, event: int) -> int:
        """The weight of a minute of an event."""
        return self.weights.get(event, 1)

    def moves(self, times: Mapping[int, int], period: int) -> Dict[int, int]:
        """The minutes by which events differ from their given times."""
        later = {event: (times[event] - time) % period for event, time in self.times.items()}
        return {event: move if 2 * move <= period else move - period for event, move in later.items() if move}

    def admits(self, moves: Mapping[int, int]) -> bool:
        """Whether held events stay, and no other event moves too far."""
        return all(event not in self.held and abs(move) <= self.most.get(event, abs(move)) for event, move in moves.items())

    def minutes(self, moves: Mapping[int, int]) -> int:
        """The sum of moves, each by its weight."""
        return sum(self.weight(event) * abs(move) for event, move in moves.items())


def whole(given: Mapping[int, int]) -> Dict[int, int]:
    """The same in plain integers. Raises TypeError for any other value."""
    return {index(event): index(number) for event, number in given.items()}


class WithMoves:
    """A network in which moves cost: its optimum takes the fewest minutes, and costs least of those.

    Beside a clock at 0, each event that may move has another one that comes after both it and its given time: the minutes from
    both to that one are at least those of the move, and no more if it comes as soon as it can. A minute of a move costs more than
    any timetable, or as much as a weight can; without costs, only minutes count.
    """

    def __init__(self, network: Network, wish: Wish, with_costs: bool = True) -> None:
        """The network of a wish, in which events have the numbers of their places. Raises WrongWords if it is too large."""
        self._wish, self.with_costs, period = wish, with_costs, network.period
        self._numbers = {event: place for place, event in enumerate(network.events, 1)}
        self._dearest = 0
        if with_costs:
            self._dearest = sum(each.weight * min(each.upper - each.lower, period - 1) for each in network.activities.values())
        self._minute = min(WEIGHTS[-1] // max([1, *map(wish.weight, wish.times)]), self._dearest + 1)
        self.network = Network(period, self._windows(network), self._activities(network))
        times = max(period, MOST_PERIOD) / MOST_PERIOD
        if times * len(self.network.windows) > MOST_EVENTS or times * len(self.network.activities) > MOST_ACTIVITIES:
            raise WrongWords("the network is too large for its nearest timetable; hold more events")

    @property
    def is_exact(self) -> bool:
        """Whether a minute costs more than any timetable."""
        return self._minute > self._dearest

    def times(self, found: Mapping[int, int]) -> Dict[int, int]:
        """The times of the events in a timetable of the network."""
        return {event: found[number] for event, number in self._numbers.items()}

    def bound(self, lower_bound: Optional[int]) -> Optional[int]:
        """The least minutes of a timetable, by a lower bound of the network's costs."""
        return None if lower_bound is None else max(0, -((self._dearest - lower_bound) // self._minute))

    def _moving(self) -> List[int]:
        return sorted(self._wish.times.keys() - self._wish.held.keys())

    def _windows(self, network: Network) -> Dict[int, Optional[Window]]:
        windows = {number: network.windows[event] for event, number in self._numbers.items()}
        windows.update({self._numbers[event]: Window(time) for event, time in self._wish.held.items()})
        # The clock, and the additional events.
        windows[0] = Window(0)
        windows.update(dict.fromkeys(range(len(windows), len(windows) + len(self._moving()))))
        return windows

    def _activities(self, network: Network) -> Dict[int, Activity]:
        numbers, wish, period = self._numbers, self._wish, network.period
        rows = [
            (numbers[each.from_event], numbers[each.to_event], each.lower, each.upper, each.weight if self.with_costs else 0)
            for each in network.activities.values()
        ]
        for beside, event in enumerate(self._moving(), len(numbers) + 1):
            time, reach, cost = wish.times[event], min(wish.most.get(event, period), period // 2), self._minute * wish.weight(event)
            rows += [(numbers[event], beside, 0, reach, cost), (0, beside, time, time + reach, cost)]
        return {number: Activity(number, *row) for number, row in enumerate(rows)}
