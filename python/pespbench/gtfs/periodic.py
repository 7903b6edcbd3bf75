"""The trips of a feed that repeat each period, as a network with a timetable."""

from __future__ import annotations

from dataclasses import dataclass, field
from pathlib import Path
from typing import Dict, List, Set, Tuple

from pespbench.folders import write_folder
from pespbench.gtfs.feed import Feed, Trip
from pespbench.labels import EventLabel, Labels
from pespbench.network import Activity, Network
from pespbench.places import Place

# Each minute of a train has the same weight: passengers are unknown.
WEIGHT = 1


@dataclass
class Drawn:
    """A network with its timetable; `left_out` trips that leave in the period do not repeat."""

    network: Network
    times: Dict[int, int] = field(default_factory=dict)
    labels: Labels = field(default_factory=Labels)
    places: Dict[str, Place] = field(default_factory=dict)
    trains: int = 0
    left_out: int = 0

    def save(self, folder: Path) -> None:
        """Writes a folder that `Bench.load` opens. Raises OSError."""
        write_folder(folder, self.network, self.times, self.labels, self.places)


def drawn_of(feed: Feed, period: int, start: int, more: int) -> Drawn:
    """The trips that leave in the period from `start` on, in minutes since midnight; runs and dwells may take `more` additional
    minutes."""
    drawn = Drawn(Network(period))
    stations: Set[str] = set()
    for pattern, starts in sorted(feed.patterns.items(), key=lambda each: (feed.lines.get(each[0].route, ""), each[0])):
        for first in sorted(each for each in starts if start <= each < start + period):
            if starts.isdisjoint((first - period, first + period)):
                drawn.left_out += 1
                continue
            add_train(drawn, feed, pattern.later(first), more)
            stations.update(call.station for call in pattern.calls)
    drawn.places = {feed.stations[station]: place for station, place in feed.places.items() if station in stations}
    return drawn


def add_train(drawn: Drawn, feed: Feed, trip: Trip, more: int) -> None:
    """Adds the events of a trip, its runs and its dwells."""
    line, to = feed.lines.get(trip.route, trip.route), feed.stations[trip.calls[-1].station]
    way: List[Tuple[int, int]] = []
    drawn.trains += 1
    for place, call in enumerate(trip.calls):
        kinds = {"arrival": call.arrival, "departure": call.departure}
        for kind in [kind for kind, edge in (("arrival", 0), ("departure", len(trip.calls) - 1)) if place != edge]:
            event = len(drawn.times) + 1
            drawn.network.windows[event] = None
            drawn.times[event] = kinds[kind] % drawn.network.period
            drawn.labels.events[event] = EventLabel(line, to, feed.stations[call.station], kind)
            way.append((event, kinds[kind]))
            if len(way) > 1:
                add_activity(drawn, way[-2], way[-1], more)
                drawn.labels.activities[len(drawn.network.activities)] = "run" if kind == "arrival" else "dwell"


def add_activity(drawn: Drawn, first: Tuple[int, int], last: Tuple[int, int], more: int) -> None:
    """Adds the activity between two events of a train."""
    number, takes = len(drawn.network.activities) + 1, last[1] - first[1]
    drawn.network.activities[number] = Activity(number, first[0], last[0], takes, takes + more, WEIGHT)
