"""The first timetable of least cost, for tests/network.py.

Events that activities join, directly or indirectly, are a part, and each part is timed by itself. Of its timetables of least cost
the first one is at bounds: each event is at 0, or at an end of its window, or as close to an event at a bound as an activity
admits, or as far from it. For fix the number of periods that each activity spans there. The constraints are then bounds on times
and on differences of times, and the cost is linear, so the timetables of least cost are all that meet these bounds, some of them
exactly. One of them has each time as small as it can be. It is the first, and a chain of bounds leads from 0 or the end of a window
to each event. So all timetables at bounds are tried, and no others. If no event of a part has a window, all times of the part can
be shifted together, and its first event is at 0.
"""

from typing import TYPE_CHECKING, Dict, Iterable, Iterator, List, Optional, Set, Tuple

from tests.rules import Row

if TYPE_CHECKING:
    from tests.network import Network

# Times by event, as pairs ascending by event.
Times = Tuple[Tuple[int, int], ...]


def parts(events: Iterable[int], activities: Iterable[Row]) -> List[List[int]]:
    """The events that activities join, directly or indirectly, each part ascending."""
    of = {event: {event} for event in events}
    for first, last, *_ in activities:
        if of[first] is not of[last]:
            of[first] |= of[last]
            of.update(dict.fromkeys(of[last], of[first]))
    return [sorted(part) for event, part in sorted(of.items()) if event == min(part)]


class Part:
    """A part of a network, and the activities of each of its events."""

    def __init__(self, network: "Network", events: List[int]) -> None:
        self.network, self.events = network, events
        rows = [row for row in network.activities.values() if row[0] in events]
        self.rows = {event: [row for row in rows if event in row[:2]] for event in events}
        self.admitted = {event: network.admitted_bits(event) for event in events}

    def ends(self, event: int) -> Set[int]:
        """0, and the ends of the event's window."""
        first, length = self.network.windows.get(event, (0, 1))
        return {0, first, (first + length - 1) % self.network.period}

    def first_times(self) -> Iterator[Times]:
        """The greatest cost of one event alone."""
        if not any(event in self.network.windows for event in self.events):
            yield ((self.events[0], 0),)
            return
        for event in self.events:
            yield from (((event, time),) for time in self.ends(event) if self.admits(event, time))

    def admits(self, event: int, time: int) -> bool:
        return bool(self.admitted[event] >> time & 1)

    def more_times(self, times: Dict[int, int]) -> Iterator[Times]:
        """The times with that of one more event, at a bound."""
        for event in self.events:
            if event not in times:
                for time in self.bounds(event, times):
                    if self.is_met(event, {**times, event: time}):
                        yield tuple(sorted({**times, event: time}.items()))

    def bounds(self, event: int, times: Dict[int, int]) -> Set[int]:
        """The times at bounds of the event, relative to others."""
        found, period = self.ends(event), self.network.period
        for first, last, lower, upper, _ in self.rows[event]:
            for step in (lower, lower + min(upper - lower, period - 1)):
                if first in times:
                    found.add((times[first] + step) % period)
                if last in times:
                    found.add((times[last] - step) % period)
        return {time for time in found if self.admits(event, time)}

    def is_met(self, event: int, times: Dict[int, int]) -> bool:
        """Whether the activities between the event and others that have a time are met."""
        return all(self.network.met(row, times) for row in self.rows[event] if row[0] in times and row[1] in times)

    def best(self) -> Optional[Tuple[int, Times]]:
        """The least cost and its first times, or None if nothing meets everything."""
        found = set(self.first_times())
        found = {times for times in found if self.is_met(times[0][0], dict(times))}
        for _ in self.events[1:]:
            found = {more for times in found for more in self.more_times(dict(times))}
        return min(((self.cost_of(dict(times)), times) for times in found), default=None)

    def cost_of(self, times: Dict[int, int]) -> int:
        rows = {id(row): row for event in self.events for row in self.rows[event]}
        return sum(row[4] * self.network.slack(row, times) for row in rows.values())


def best(network: "Network") -> Optional[Tuple[int, Dict[int, int]]]:
    """The first timetable of least cost, with its cost, or None."""
    found = [Part(network, part).best() for part in parts(network.events, network.activities.values())]
    best_of_each = [each for each in found if each is not None]
    if len(best_of_each) < len(found):
        return None
    return sum(cost for cost, _ in best_of_each), {event: time for _, times in best_of_each for event, time in times}
