"""The contents of a feed: trips with their calls, names of stations and lines, and places of stations."""

from __future__ import annotations

import math
from collections import Counter
from dataclasses import dataclass
from datetime import date
from pathlib import Path
from typing import Dict, List, Mapping, NamedTuple, Optional, Sequence, Set, Tuple

from pespbench.gtfs.tables import Row, Tables
from pespbench.places import Place

DAYS = ("monday", "tuesday", "wednesday", "thursday", "friday", "saturday", "sunday")
ADDED, REMOVED = "1", "2"
# The decimals of a degree that are kept: a decimetre.
DECIMALS = 6


class Call(NamedTuple):
    """When a trip arrives at a station and leaves it, in minutes since midnight."""

    station: str
    arrival: int
    departure: int


class Trip(NamedTuple):
    """A run of a line in one of its directions."""

    route: str
    direction: str
    calls: Tuple[Call, ...]

    def later(self, minutes: int) -> Trip:
        """The same trip, this many minutes later."""
        return self._replace(calls=tuple(Call(each.station, each.arrival + minutes, each.departure + minutes) for each in self.calls))


@dataclass(frozen=True)
class Feed:
    """For each trip, shifted to start at minute 0, when it leaves; and names of lines and stations, and places of stations, by the
    feed's identifiers."""

    patterns: Dict[Trip, Set[int]]
    lines: Dict[str, str]
    stations: Dict[str, str]
    places: Dict[str, Place]


def read_feed(path: Path, day: Optional[date] = None) -> Feed:
    """Reads a folder or an archive: the trips of a day, or of all days by default. Raises OSError and FileFault."""
    with Tables(path) as tables:
        return feed_of(tables, day)


def feed_of(tables: Tables, day: Optional[date]) -> Feed:
    """The contents of the tables of a feed."""
    parents, stations, places = stops_of(tables)
    names = {row.text("route_id"): row for row in tables.rows("routes", ["route_id"])}
    lines = {route: row.text("route_short_name") or row.text("route_long_name") or route for route, row in names.items()}
    running = None if day is None else services_on(tables, day)
    ways = {
        row.text("trip_id"): (row.text("route_id"), row.text("direction_id"))
        for row in tables.rows("trips", ["trip_id", "route_id", "service_id"])
        if running is None or row.text("service_id") in running
    }
    calls = calls_of(tables, ways, parents)
    trips = {trip: Trip(*ways[trip], tuple(each)) for trip, each in calls.items() if is_ordered(each)}
    return Feed(patterns_of(tables, trips), lines, stations, places)


def stops_of(tables: Tables) -> Tuple[Dict[str, str], Dict[str, str], Dict[str, Place]]:
    """The station of each stop, names of stations, all different, and their places, x to the east in degrees of latitude."""
    rows = {row.text("stop_id"): row for row in tables.rows("stops", ["stop_id", "stop_name"])}
    parents = {stop: row.text("parent_station") if row.text("parent_station") in rows else stop for stop, row in rows.items()}
    own = {station: rows[station].text("stop_name") or station for station in set(parents.values())}
    count = Counter(own.values())
    names = {station: name if count[name] == 1 else f"{name} ({station})" for station, name in own.items()}
    degrees = {station: (degree(rows[station], "stop_lon"), degree(rows[station], "stop_lat")) for station in names}
    known = {station: place for station, place in degrees.items() if all(map(math.isfinite, place))}
    middle = math.cos(math.radians(sum(y for _, y in known.values()) / max(1, len(known))))
    return parents, names, {station: (round(x * middle, DECIMALS), y) for station, (x, y) in known.items()}


def degree(row: Row, title: str) -> float:
    """A longitude or latitude, or not a number if it is missing."""
    try:
        return float(row.text(title) or math.nan)
    except ValueError:
        return math.nan


def services_on(tables: Tables, day: date) -> Set[str]:
    """The services of a day. Raises FileFault."""
    wanted, running = f"{day:%Y%m%d}", set()
    for row in tables.rows("calendar", ["service_id", "start_date", "end_date", *DAYS], is_needed=False):
        if row.text(DAYS[day.weekday()]) == "1" and row.text("start_date") <= wanted <= row.text("end_date"):
            running.add(row.text("service_id"))
    for row in tables.rows("calendar_dates", ["service_id", "date", "exception_type"], is_needed=False):
        if row.text("date") == wanted:
            if row.text("exception_type") == ADDED:
                running.add(row.text("service_id"))
            elif row.text("exception_type") == REMOVED:
                running.discard(row.text("service_id"))
    return running


def calls_of(tables: Tables, trips: Dict[str, Tuple[str, str]], parents: Dict[str, str]) -> Dict[str, List[Call]]:
    """The calls with times of each trip, in their order. Raises FileFault."""
    found: Dict[str, List[Tuple[int, Call]]] = {}
    for row in tables.rows("stop_times", ["trip_id", "stop_id", "stop_sequence", "arrival_time", "departure_time"]):
        if row.text("trip_id") not in trips:
            continue
        came, left = row.minutes("arrival_time"), row.minutes("departure_time")
        arrival, departure = left if came is None else came, came if left is None else left
        if arrival is None or departure is None:
            continue
        if row.text("stop_id") not in parents:
            raise row.fault(f"there is no stop {row.text('stop_id')[:40]!r}")
        call = Call(parents[row.text("stop_id")], arrival, departure)
        found.setdefault(row.text("trip_id"), []).append((row.whole("stop_sequence"), call))
    return {trip: [call for _, call in sorted(calls)] for trip, calls in found.items()}


def is_ordered(calls: Sequence[Call]) -> bool:
    """Whether a trip has two calls at least, and never goes back in time."""
    times = [time for call in calls for time in (call.arrival, call.departure)]
    return len(calls) > 1 and times == sorted(times)


def patterns_of(tables: Tables, trips: Mapping[str, Trip]) -> Dict[Trip, Set[int]]:
    """The times at which trips of the same pattern leave; those of frequencies replace the single time. Raises FileFault."""
    often: Dict[str, Set[int]] = {}
    for row in tables.rows("frequencies", ["trip_id", "start_time", "end_time", "headway_secs"], is_needed=False):
        start, end, headway = row.minutes("start_time"), row.minutes("end_time"), row.whole("headway_secs")
        if headway < 60:
            raise row.fault("a headway has a minute at least")
        if row.text("trip_id") in trips and start is not None and end is not None:
            after = range(0, 60 * (end - start), headway)
            often.setdefault(row.text("trip_id"), set()).update(start + seconds // 60 for seconds in after)
    patterns: Dict[Trip, Set[int]] = {}
    for name, trip in trips.items():
        first = trip.calls[0].departure
        patterns.setdefault(trip.later(-first), set()).update(often.get(name, {first}))
    return patterns
