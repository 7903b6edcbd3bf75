"""Generates the region of a seed.

The hidden timetable meets each activity, except one of an infeasible region; so a feasible region has a timetable by
construction. An infeasible region is a feasible one with a single span moved, so that the circle through it no longer
takes a whole number of periods.
"""

from __future__ import annotations

from dataclasses import replace
from typing import Iterator, Sequence

from pespbench.drawn.circles import moved_off
from pespbench.drawn.numbers import Numbers
from pespbench.drawn.region import PERIOD, Region, RegionActivity, RegionEvent
from pespbench.drawn.stations import draw_stations

# The sizes below are those of a region of six lines; others are in proportion.
LINES = 6
FEWEST_LINES, MOST_LINES = 3, 24
LEAST_EVENTS, MOST_EVENTS = 100, 120
LEAST_CIRCLES, MOST_CIRCLES = 30, 35
MOST_HEADWAYS = 12
HEADWAY = 3


class Drawing:
    """A region during its generation: events with their hidden times, and the activities so far."""

    def __init__(self, numbers: Numbers, change_widths: tuple[int, int], lines: int) -> None:
        self.numbers, self.change_widths, self.lines = numbers, change_widths, lines
        self.events: list[RegionEvent] = []
        self.activities: list[RegionActivity] = []

    def sized(self, count: int) -> int:
        """The number for this many lines, in proportion to that of six."""
        return count * self.lines // LINES

    def add_event(self, line: str, to: str, station: str, kind: str, time: int) -> RegionEvent:
        """A new event, at a hidden time that is taken modulo the period."""
        event = RegionEvent(len(self.events) + 1, line, to, station, kind, time % PERIOD)
        self.events.append(event)
        return event

    def add(self, ends: tuple[RegionEvent, RegionEvent], lower: int, width: int, weight: int, kind: str) -> None:
        """A new activity, whose span is wide enough for the hidden timetable."""
        first, last = ends
        upper = lower + max(width, slack_of(first, last, lower))
        number = len(self.activities) + 1
        self.activities.append(RegionActivity(number, first.number, last.number, lower, upper, weight, kind))

    def add_train(self, line: str, stations: Sequence[str], minutes: Sequence[int], start: int) -> list[RegionEvent]:
        """The events of one direction of a line with its runs and dwells, from a hidden start on."""
        numbers, to = self.numbers, stations[-1]
        load = numbers.between(30, 180)
        events = [self.add_event(line, to, stations[0], "departure", start)]
        for place, (station, run) in enumerate(zip(stations[1:], minutes), start=1):
            width = numbers.between(0, 2)
            arrival = self.add_event(line, to, station, "arrival", events[-1].time + run + numbers.between(0, width))
            self.add((events[-1], arrival), run, width, load, "run")
            events.append(arrival)
            if place < len(stations) - 1:
                dwell, width = numbers.between(1, 2), numbers.between(1, 4)
                departure = self.add_event(line, to, station, "departure", arrival.time + dwell + numbers.between(0, width))
                self.add((arrival, departure), dwell, width, load * 3 // 4, "dwell")
                events.append(departure)
            load = max(10, load + numbers.between(-40, 40))
        return events

    def add_line(self, line: str, stations: Sequence[str], minutes: Sequence[int]) -> None:
        """Both directions of a line, and a turnaround at each end."""
        numbers = self.numbers
        there = self.add_train(line, stations, minutes, numbers.below(PERIOD))
        turn, back_turn = numbers.between(5, 9), numbers.between(5, 9)
        # What remains of the last period of the round trip is dwell time at the two ends.
        start = there[-1].time + turn
        back = self.add_train(line, stations[::-1], minutes[::-1], start)
        spare = slack_of(back[-1], there[0], back_turn)
        waited = numbers.between(spare // 3, spare - spare // 3)
        for place in range(back[0].number - 1, back[-1].number):
            self.events[place] = replace(self.events[place], time=(self.events[place].time + waited) % PERIOD)
        first, last = self.events[back[0].number - 1], self.events[back[-1].number - 1]
        self.add((there[-1], first), turn, waited + numbers.between(0, 6), 10, "turnaround")
        self.add((last, there[0]), back_turn, spare - waited + numbers.between(0, 6), 10, "turnaround")

    def join_lines(self, count: int) -> bool:
        """Headways and changes between lines, of the given total number; False if the hidden timetable meets too few."""
        headways = self.numbers.shuffled(list(headway_pairs(self)))[: self.sized(MOST_HEADWAYS)]
        changes = self._fitting_changes()
        if len(headways) + len(changes) < count:
            return False
        for arrival, departure, lower in changes[: count - len(headways)]:
            width = self.numbers.between(*self.change_widths)
            self.add((arrival, departure), lower, width, self.numbers.between(5, 60), "change")
        for first, last in headways:
            self.add((first, last), HEADWAY, PERIOD - 2 * HEADWAY, 0, "headway")
        return True

    def _fitting_changes(self) -> list[tuple[RegionEvent, RegionEvent, int]]:
        found = []
        for arrival, departure in self.numbers.shuffled(list(change_pairs(self))):
            lower = self.numbers.between(3, 5)
            if slack_of(arrival, departure, lower) <= self.change_widths[1]:
                found.append((arrival, departure, lower))
        return found


def slack_of(first: RegionEvent, last: RegionEvent, lower: int) -> int:
    """The slack of an activity in the hidden timetable."""
    return (last.time - first.time - lower) % PERIOD


def neighbour(drawing: Drawing, event: RegionEvent, step: int) -> str | None:
    """The station before (step -1) or after (step 1) on the way of the event's train, if there is one."""
    place = event.number - 1 + step
    if not 0 <= place < len(drawing.events):
        return None
    other = drawing.events[place]
    return other.station if (other.line, other.to) == (event.line, event.to) else None


def change_pairs(drawing: Drawing) -> Iterator[tuple[RegionEvent, RegionEvent]]:
    """An arrival and a departure of another line at the same station, which does not go back where the train came from."""
    departures = [event for event in drawing.events if event.kind == "departure"]
    for arrival in drawing.events:
        if arrival.kind != "arrival":
            continue
        came_from = neighbour(drawing, arrival, -1)
        for departure in departures:
            is_change = departure.station == arrival.station and departure.line != arrival.line
            if is_change and neighbour(drawing, departure, 1) != came_from:
                yield arrival, departure


def headway_pairs(drawing: Drawing) -> Iterator[tuple[RegionEvent, RegionEvent]]:
    """Two departures onto the same track, which the hidden timetable keeps apart."""
    departures = [event for event in drawing.events if event.kind == "departure"]
    for place, first in enumerate(departures):
        for last in departures[place + 1 :]:
            is_shared = first.station == last.station and neighbour(drawing, first, 1) == neighbour(drawing, last, 1)
            if is_shared and first.line != last.line and slack_of(first, last, HEADWAY) <= PERIOD - 2 * HEADWAY:
                yield first, last


def draw_region(seed: int, feasible: bool = True, change_widths: tuple[int, int] = (10, 35), lines: int = LINES) -> Region:
    """The region of a seed, of `lines` lines with some 17 events each.

    The span of a change allows from the first to the second of `change_widths` minutes above its lower bound, or as many as the
    hidden timetable needs, which are never more than the second. Raises ValueError for fewer lines than 3 or more than 24.
    """
    if not FEWEST_LINES <= lines <= MOST_LINES:
        raise ValueError(f"a region has {FEWEST_LINES} to {MOST_LINES} lines")
    numbers = Numbers(seed)
    while True:
        region = _draw_once(seed, Drawing(numbers, change_widths, lines))
        if region and not feasible:
            region = moved_off(region, numbers)
        if region:
            return region


def _draw_once(seed: int, drawing: Drawing) -> Region | None:
    numbers, sized = drawing.numbers, drawing.sized
    stations = draw_stations(numbers)
    for place, path in enumerate(stations.draw_lines(numbers, drawing.lines)):
        minutes = [stations.minutes(*pair) for pair in zip(path, path[1:])]
        drawing.add_line(f"R{place + 1}", path, minutes)
    circles = numbers.between(sized(LEAST_CIRCLES), sized(MOST_CIRCLES))
    if not sized(LEAST_EVENTS) <= len(drawing.events) <= sized(MOST_EVENTS) or not drawing.join_lines(circles - 1):
        return None
    region = Region(seed, drawing.events, drawing.activities, stations)
    return region if region.is_connected() else None
