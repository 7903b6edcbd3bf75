"""The contents of LinTim's files: activities, their types, times, labels and places."""

from __future__ import annotations

from dataclasses import dataclass, field
from decimal import Decimal
from pathlib import Path
from typing import Sequence

from pespbench.faults import FileFault
from pespbench.files import BOUNDS, NUMBERS, TIMES
from pespbench.labels import EventLabel, Labels
from pespbench.lintim.fields import ACTIVITY, EVENT, EXACT, MOST_DIGITS, lines_of
from pespbench.network import Activity
from pespbench.places import Place

# The kinds used here for LinTim's types of activities; others keep their names.
KINDS = {"drive": "run", "wait": "dwell", "turn": "turnaround"}
TRAIN_TYPES = ("drive", "wait")
GREATEST_WEIGHT = 1_000_000_000
NO_PASSENGERS = Decimal(0)


@dataclass
class LinTim:
    """The contents: activities by number, their types, times of events by number, labels, places of stations.

    Weights are `scale` times the passengers; a cost is then `scale` times LinTim's.
    """

    activities: dict[int, Activity]
    types: dict[int, str]
    scale: int
    times: dict[int, int] = field(default_factory=dict)
    labels: Labels = field(default_factory=Labels)
    places: dict[str, Place] = field(default_factory=dict)


def read_lintim(activities: Path, timetable: Path | None = None, events: Path | None = None, stops: Path | None = None) -> LinTim:
    """Reads LinTim's files.

    Raises:
        OSError: a file cannot be read.
        FileFault: a row has too few fields or an invalid number, or an activity is repeated.
    """
    rows, passengers, types = [], [], {}
    for line in lines_of(activities, 6, ACTIVITY):
        name, first, last = (line.whole(line.fields[place], NUMBERS) for place in (0, 2, 3))
        lower, upper = (line.whole(line.fields[place], BOUNDS) for place in (4, 5))
        if name in types:
            raise line.fault(f"activity {name} is repeated")
        if lower > upper:
            raise line.fault("lower bound above upper bound")
        types[name] = line.fields[1].lower()
        rows.append((name, first, last, lower, upper))
        passengers.append(line.decimal(line.fields[6]) if any(line.fields[6:]) else NO_PASSENGERS)
    scale, weights = weights_of(activities, passengers)
    made = {row[0]: Activity(*row, weight) for row, weight in zip(rows, weights)}
    read = LinTim(made, types, scale)
    read.labels.activities = {name: KINDS.get(kind, kind) for name, kind in types.items() if kind}
    if timetable is not None:
        read.times = read_timetable(timetable)
    names = read_stops(stops, read) if stops is not None else {}
    if events is not None:
        read_events(events, names, read)
    return read


def read_timetable(path: Path) -> dict[int, int]:
    """The times of events, not modulo a period."""
    return {line.whole(line.fields[0], NUMBERS): line.whole(line.fields[1], TIMES) for line in lines_of(path, 2)}


def weights_of(path: Path, passengers: Sequence[Decimal]) -> tuple[int, list[int]]:
    """The least power of ten that makes all numbers whole, and all multiplied by it. Raises FileFault for one that is not a weight
    then."""
    digits = max((-int(each.normalize(EXACT).as_tuple().exponent) for each in passengers), default=0)
    scale = 10 ** max(0, min(digits, MOST_DIGITS))
    weights = [EXACT.multiply(each, scale) if 0 <= each <= GREATEST_WEIGHT else Decimal(-1) for each in passengers]
    for weight, each in zip(weights, passengers):
        if weight != weight.to_integral_value() or not 0 <= weight <= GREATEST_WEIGHT:
            raise FileFault(str(path), None, f"passengers {each} are no weight from 0 to {GREATEST_WEIGHT} times {scale}")
    return scale, [int(weight) for weight in weights]


def read_stops(path: Path, read: LinTim) -> dict[str, str]:
    """Reads the places of stations, and returns their names by number."""
    names: dict[str, str] = {}
    for line in lines_of(path, 5):
        number, short, name, x, y = line.fields[:5]
        names[number] = name or short or f"stop {number}"
        read.places[names[number]] = float(line.decimal(x)), float(line.decimal(y))
    return names


def read_events(path: Path, names: dict[str, str], read: LinTim) -> None:
    """Adds labels of events: a train goes to the station of its last event."""
    stations, lines, kinds = {}, {}, {}
    for row in lines_of(path, 4, EVENT):
        event, stop = row.whole(row.fields[0], NUMBERS), row.fields[2]
        kinds[event], lines[event] = row.fields[1].lower(), f"L{row.fields[3]}"
        stations[event] = names.get(stop, f"stop {stop}")
    ends = last_events(read)
    read.labels.events = {
        event: EventLabel(lines[event], stations.get(ends.get(event, event), ""), stations[event], kinds[event])
        for event in stations
    }


def last_events(read: LinTim) -> dict[int, int]:
    """The last event of the train of each event that a train's activity names.

    The path of a train that runs in a circle ends before it reaches an event again.
    """
    following = {}
    for name, activity in read.activities.items():
        if read.types[name] in TRAIN_TYPES:
            following[activity.from_event] = activity.to_event
    ends: dict[int, int] = {}
    for event in following:
        way, passed = [event], {event}
        while way[-1] in following and way[-1] not in ends and following[way[-1]] not in passed:
            way.append(following[way[-1]])
            passed.add(way[-1])
        end = ends.get(way[-1], way[-1])
        ends.update((each, end) for each in way)
    return ends
