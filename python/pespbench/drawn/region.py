"""The contents of a generated region: lines through shared stations, with labels, places and a hidden timetable.

A region has six lines over fifteen stations, 100 to 120 events and 30 to 35 circles (as many as activities lie outside a
spanning tree). Times are minutes.
"""

from __future__ import annotations

from dataclasses import dataclass
from pathlib import Path

from pespbench.drawn.stations import Stations
from pespbench.folders import write_folder
from pespbench.labels import EventLabel, Labels
from pespbench.network import Activity, Network

PERIOD = 60


@dataclass(frozen=True)
class RegionEvent:
    """A train of a line leaves a station, or arrives there; `to` is the station at which the train ends."""

    number: int
    line: str
    to: str
    station: str
    kind: str
    time: int


@dataclass(frozen=True)
class RegionActivity:
    """An activity as in a file of activities, with its kind; bounds in minutes, the weight per minute of slack."""

    number: int
    first: int
    last: int
    lower: int
    upper: int
    weight: int
    kind: str

    @property
    def width(self) -> int:
        """How many minutes the span allows above its lower bound."""
        return self.upper - self.lower


@dataclass(frozen=True)
class Region:
    """A generated region; `times` are those of the hidden timetable, which an infeasible region does not meet."""

    seed: int
    events: list[RegionEvent]
    activities: list[RegionActivity]
    places: Stations
    period: int = PERIOD

    @property
    def times(self) -> dict[int, int]:
        """The minute of each event in the hidden timetable."""
        return {event.number: event.time for event in self.events}

    @property
    def circles(self) -> int:
        """How many activities lie outside a spanning tree; a region is connected."""
        return len(self.activities) - len(self.events) + 1

    def is_connected(self) -> bool:
        """Whether each event can be reached from each other along activities."""
        parts = {event.number: {event.number} for event in self.events}
        for activity in self.activities:
            first, last = parts[activity.first], parts[activity.last]
            if first is not last:
                first |= last
                parts.update((event, first) for event in last)
        return len(parts[self.events[0].number]) == len(parts)

    def save(self, folder: Path) -> None:
        """Writes the region as a folder that `Bench.load` opens, with the hidden timetable as its times.

        Raises:
            OSError: the folder cannot be created, or a file cannot be written.
        """
        activities = {
            each.number: Activity(each.number, each.first, each.last, each.lower, each.upper, each.weight) for each in self.activities
        }
        labels = Labels({each.number: EventLabel(each.line, each.to, each.station, each.kind) for each in self.events})
        labels.activities = {each.number: each.kind for each in self.activities}
        network = Network(self.period, dict.fromkeys(sorted(self.times)), activities)
        write_folder(folder, network, self.times, labels, self.places.places)
