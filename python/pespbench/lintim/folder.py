"""The files of a folder of LinTim, or of TimPassLib, and the period of its configuration."""

from __future__ import annotations

from dataclasses import dataclass
from pathlib import Path
from typing import Iterator

from pespbench.faults import FileFault
from pespbench.folders import own_file
from pespbench.lintim.fields import Line, lines_of

LEAST_PERIOD, MOST_PERIOD = 2, 1_440
# The names of the files, in this order, below the folder or beside each other in it.
NAMES = {
    "config": ("basis/Config.cnf", "Config.cnf", "Config.csv"),
    "activities": ("timetabling/Activities-periodic.giv", "Activities-periodic.giv", "Activities.giv", "Activities.csv"),
    "timetable": ("timetabling/Timetable-periodic.tim", "Timetable-periodic.tim", "Timetable.tim", "Timetable.csv"),
    "events": ("timetabling/Events-periodic.giv", "Events-periodic.giv", "Events.giv", "Events.csv"),
    "stops": ("basis/Stop.giv", "basis/Stops.giv", "Stop.giv", "Stops.giv", "Stop.csv", "Stops.csv"),
}
INCLUDES = ("include", "include_if_exists")
# The depth at which a configuration that includes itself is given up.
MOST_INCLUDED = 20


@dataclass(frozen=True)
class LinTimFiles:
    """The files of a folder; each but the activities may be missing."""

    activities: Path
    timetable: Path | None = None
    events: Path | None = None
    stops: Path | None = None
    config: Path | None = None


def files_in(folder: Path) -> LinTimFiles:
    """The files of a folder. Raises FileFault if it has no activities, and for links out of it."""
    found = {name: next(filter(None, (own_file(folder, place) for place in places)), None) for name, places in NAMES.items()}
    activities = found.pop("activities")
    if activities is None:
        raise FileFault(str(folder), None, f"there is no {' or '.join(NAMES['activities'])}")
    return LinTimFiles(activities, **found)


def period_in(config: Path, folder: Path) -> int | None:
    """The period of a configuration, or of one in the folder that it includes; None if it has none.

    Files outside the folder are not read. Raises OSError, and FileFault for a period out of range.
    """
    periods = [line.whole(line.fields[1], range(LEAST_PERIOD, MOST_PERIOD + 1)) for line in settings(config, folder, [])]
    return periods[-1] if periods else None


def settings(config: Path, folder: Path, passed: list[Path]) -> Iterator[Line]:
    """The rows with the period, in LinTim's order: the last one counts."""
    passed.append(config)
    for line in lines_of(config, 2):
        key, value = line.fields[:2]
        if key in INCLUDES and len(passed) < MOST_INCLUDED:
            included = within(config.parent / value, folder)
            yield from settings(included, folder, passed) if included is not None else ()
        elif key == "period_length":
            yield line


def within(path: Path, folder: Path) -> Path | None:
    """A file that exists and is in the folder, or None."""
    place = path.resolve()
    return place if folder.resolve() in place.parents and place.is_file() else None
