"""A network for tests/model.py: its edits with their refusals, and its values by the rules of docs/RULES.md.

It is plain: domains are found by removing pairs until nothing changes, and the optimum by trying all timetables at
bounds. Sets of residues are numbers, so that both are fast at a long period too.
"""

from typing import Dict, Iterable, List, Mapping, Optional, Set, Tuple

from tests import optimum
from tests.limits import most_activities, most_events
from tests.residues import listed, run_of, spread
from tests.rules import Row, Times


class Refused(Exception):
    """Why a command is refused."""


class Network:
    """A period, events, windows and activities.

    A window is a pair of its first residue and its length, by event; a fixed time is one of length 1. An activity is
    its two events, its bounds and its weight, by its number.
    """

    def __init__(self, period: int, activities: Iterable[Row] = (), fixed: Optional[Times] = None) -> None:
        self.period = period
        self.activities = {row[0]: tuple(row[1:]) for row in activities}
        self.events = {event for row in self.activities.values() for event in row[:2]}
        self.windows = {event: (time % period, 1) for event, time in (fixed or {}).items()}

    # Refusals

    def no_event(self, *events: int) -> None:
        for event in events:
            if event not in self.events:
                raise Refused(f"2 no event {event}")

    def no_activity(self, activity: int) -> None:
        if activity not in self.activities:
            raise Refused(f"6 no activity {activity}")

    def late(self, time: int) -> None:
        if time >= self.period:
            raise Refused(f"4 time {time} is out of range")

    # Edits

    def add_event(self, event: int) -> None:
        if event in self.events:
            raise Refused(f"1 event {event} exists")
        if len(self.events) == most_events(self.period):
            raise Refused("7 too many events")
        self.events.add(event)

    def drop_event(self, event: int) -> None:
        self.no_event(event)
        users = [activity for activity, row in self.activities.items() if event in row[:2]]
        if users:
            raise Refused(f"3 event {event} is used by activity {min(users)}")
        self.events.remove(event)
        self.windows.pop(event, None)

    def fix(self, event: int, time: int) -> None:
        self.no_event(event)
        self.late(time)
        self.windows[event] = (time, 1)

    def window(self, event: int, first: int, length: int) -> None:
        self.no_event(event)
        self.late(first)
        if length not in range(1, self.period + 1):
            raise Refused(f"13 length {length} is out of range")
        self.windows[event] = (first, length)

    def unfix(self, event: int) -> None:
        self.no_event(event)
        if event not in self.windows:
            raise Refused(f"9 event {event} is not fixed")
        del self.windows[event]

    def add_activity(self, activity: int, first: int, last: int, lower: int, upper: int, weight: int) -> None:
        if activity in self.activities:
            raise Refused(f"5 activity {activity} exists")
        self.no_event(first, last)
        if len(self.activities) == most_activities(self.period):
            raise Refused("8 too many activities")
        self.activities[activity] = (first, last, lower, upper, weight)

    def drop_activity(self, activity: int) -> None:
        self.no_activity(activity)
        del self.activities[activity]

    def change(self, activity: int, place: int, values: Row) -> None:
        row = self.activities[activity]
        self.activities[activity] = row[:place] + values + row[place + len(values) :]

    def span(self, activity: int, lower: int, upper: int) -> None:
        self.no_activity(activity)
        self.change(activity, 2, (lower, upper))

    def weight(self, activity: int, weight: int) -> None:
        self.no_activity(activity)
        self.change(activity, 4, (weight,))

    def ends(self, activity: int, first: int, last: int) -> None:
        self.no_activity(activity)
        self.no_event(first, last)
        self.change(activity, 0, (first, last))

    # The rules

    def admits(self, event: int, residue: int) -> bool:
        """Whether the event's window admits the residue, which is below the period."""
        first, length = self.windows.get(event, (0, self.period))
        return (residue - first) % self.period < length

    def admitted_bits(self, event: int) -> int:
        return run_of(*self.windows.get(event, (0, self.period)), self.period)

    def admitted(self, event: int) -> List[int]:
        return listed(self.admitted_bits(event))

    def slack(self, row: Row, times: Mapping[int, int]) -> int:
        first, last, lower, _, _ = row
        return (times[last] - times[first] - lower) % self.period

    def met(self, row: Row, times: Mapping[int, int]) -> bool:
        return self.slack(row, times) <= row[3] - row[2]

    def cost_of(self, times: Mapping[int, int]) -> int:
        return sum(row[4] * self.slack(row, times) for row in self.activities.values())

    def allows(self, row: Row, first_time: int, last_time: int) -> bool:
        return (last_time - first_time - row[2]) % self.period <= row[3] - row[2]

    def rows(self, pushed: Optional[Mapping[int, int]] = None) -> Dict[int, Set[int]]:
        """The domains, each as a set of residues."""
        return {event: set(listed(bits)) for event, bits in self.domain_bits(pushed).items()}

    def domain_bits(self, pushed: Optional[Mapping[int, int]] = None) -> Dict[int, int]:
        """The domains: pairs are removed as long as one of them lacks a partner."""
        rows = {event: self.admitted_bits(event) for event in self.events}
        for event, time in (pushed or {}).items():
            rows[event] &= 1 << time
        before = None
        while rows != before:
            before = dict(rows)
            for first, last, lower, upper, _ in self.activities.values():
                rows[first] &= spread(rows[last], -upper, upper - lower, self.period)
                rows[last] &= spread(rows[first], lower, upper - lower, self.period)
        return rows

    def best(self) -> Optional[Tuple[int, Dict[int, int]]]:
        """The first timetable of least cost, with its cost, or None.

        Of two timetables of equal cost the first is that with the smaller time at the first event, ascending, at which they differ.
        """
        return optimum.best(self)

    def is_member(self, times: Mapping[int, int]) -> bool:
        kept = all(self.admits(event, time) for event, time in times.items())
        below = all(time in range(self.period) for time in times.values())
        return below and kept and all(self.met(row, times) for row in self.activities.values())
