"""Writes a network and its timetable as LinTim's files, and data read from LinTim as folders of pespbench."""

from __future__ import annotations

import re
from pathlib import Path
from typing import Iterable, Mapping, Sequence

from pespbench.folders import write_folder
from pespbench.labels import EventLabel, Labels
from pespbench.lintim.reading import KINDS, LinTim
from pespbench.network import Network
from pespbench.places import Place, plain
from pespbench.writing import write_all, write_text

# LinTim's types of activities; one without a kind only keeps two events apart.
TYPES = {**{kind: word for word, kind in KINDS.items()}, "": "sync"}


def write_timetable(path: Path, times: Mapping[int, int]) -> None:
    """Writes times as LinTim's Timetable-periodic.tim. Raises OSError."""
    write_text(path, timetable_text(times))


def timetable_text(times: Mapping[int, int]) -> str:
    """The text of the file of a timetable."""
    return rows_text("event_index; time", sorted(times.items()))


def rows_text(titles: str, rows: Iterable[Sequence[object]]) -> str:
    """A file with a comment that names its columns, and rows."""
    return f"# {titles}\n" + "".join(f"{'; '.join(map(str, row))}\n" for row in rows)


def save_lintim(read: LinTim, folder: Path, period: int) -> None:
    """Writes data read from LinTim as a folder that `Bench.load` opens, with a file of places if there are stops.

    Raises:
        OSError: the folder cannot be created, or a file cannot be written.
    """
    times = {event: time % period for event, time in read.times.items()}
    write_folder(folder, network_of(read, period), times, read.labels, read.places)


def network_of(read: LinTim, period: int) -> Network:
    """The network whose events are the ends of the activities."""
    events = {event for each in read.activities.values() for event in (each.from_event, each.to_event)}
    return Network(period, dict.fromkeys(sorted(events)), read.activities)


def write_lintim(folder: Path, network: Network, times: Mapping[int, int], labels: Labels, places: Mapping[str, Place]) -> None:
    """Writes LinTim's files, whole or not at all; they cannot contain windows. Raises OSError."""
    for name in ("basis", "timetabling"):
        (folder / name).mkdir(parents=True, exist_ok=True)
    stations = {station: number for number, station in enumerate(sorted({*places, *(each.station for each in labels.events.values())}), 1)}
    texts = {
        "basis/Config.cnf": rows_text("config_key; value", [("period_length", network.period)]),
        "basis/Stop.giv": stops_text(stations, places),
        "timetabling/Activities-periodic.giv": activities_text(network, labels),
        "timetabling/Events-periodic.giv": events_text(network, labels, stations),
        "timetabling/Timetable-periodic.tim": timetable_text(times),
    }
    write_all({str(folder / name): text for name, text in texts.items()})


def activities_text(network: Network, labels: Labels) -> str:
    """The file of activities, with weights as passengers."""
    titles = "activity_index; type; from_event; to_event; lower_bound; upper_bound; passengers"
    listed = sorted(network.activities.items())
    kinds = {number: labels.kind(number) for number, _ in listed}
    rows = [(number, quoted(TYPES.get(kinds[number], kinds[number])), each.from_event, each.to_event, each.lower, each.upper, each.weight) for number, each in listed]
    return rows_text(titles, rows)


def events_text(network: Network, labels: Labels, stations: Mapping[str, int]) -> str:
    """The file of events. Lines are numbers there, and the two directions of a line signs."""
    lines = numbers_of({each.line for each in labels.events.values()})
    ends: dict[str, list[str]] = {}
    rows = []
    for event in network.events:
        label = labels.events.get(event, EventLabel())
        ways = ends.setdefault(label.line, [])
        if label.to not in ways:
            ways.append(label.to)
        way = "<" if ways.index(label.to) % 2 else ">"
        rows.append((event, quoted(label.kind), stations.get(label.station, 0), lines.get(label.line, 0), 0, way, 1))
    return rows_text("event_index; type; stop_id; line_id; passengers; direction; repetition", rows)


def numbers_of(lines: Iterable[str]) -> dict[str, int]:
    """A number for each line: its own, as in L7, if all have one, and otherwise its place."""
    listed = sorted(lines)
    own = {line: int(found[1]) for line in listed if (found := re.fullmatch("L([0-9]{1,9})", line))}
    if len(own) == len(listed) == len(set(own.values())):
        return own
    return {line: number for number, line in enumerate(listed, 1)}


def stops_text(stations: Mapping[str, int], places: Mapping[str, Place]) -> str:
    """The file of stations; those without a place are at 0."""
    rows = [(number, quoted(name), quoted(name), *map(plain, places.get(name, (0.0, 0.0)))) for name, number in stations.items()]
    return rows_text("stop_id; short_name; long_name; x_coordinate; y_coordinate", rows)


def quoted(name: str) -> str:
    """A name in quotes."""
    return '"{}"'.format(name.replace('"', '""'))
