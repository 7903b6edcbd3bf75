"""A network in a folder of plain files; `pespbench --check` reads those that the program reads.

| File | Contents |
|---|---|
| `period` | the period, a number |
| `activities`, `times` | in the program's format |
| `fixed` | the fixed times of events that activities name, in the program's format |
| `windows` | `event; first; length`: all other windows |
| `events` | the events that no activity names |
| `labels` | labels, if there are any (pespbench.labels) |
| `places` | places of stations, if there are any (pespbench.places) |
"""

from __future__ import annotations

import os
from pathlib import Path
from typing import TYPE_CHECKING, Any, Dict, Mapping, Optional, Union

from pespbench import files
from pespbench.engines import Engine
from pespbench.faults import FileFault, Refused
from pespbench.labels import Labels
from pespbench.network import Network, window_command
from pespbench.places import Place, places_text, read_places
from pespbench.writing import write_set

if TYPE_CHECKING:
    from pespbench.client import Bench

AnyPath = Union[str, "os.PathLike[str]"]


def save(bench: "Bench", folder: AnyPath) -> None:
    """Writes network, times, labels and places to a folder, as `write_folder` does. Raises OSError."""
    write_folder(folder, bench.network, bench.times, bench.labels, bench.places)


def write_folder(
    folder: AnyPath, network: Network, times: Mapping[int, int], labels: Labels, places: Mapping[str, Place]
) -> None:
    """Writes a folder, created if missing, whole or not at all (pespbench.writing). Raises OSError.

    Nothing of an earlier network remains: labels and places that this one lacks are removed; other files do not change.
    """
    named = {event for each in network.activities.values() for event in (each.from_event, each.to_event)}
    windows = {event: window for event, window in network.windows.items() if window is not None}
    fixed = {event: window.first for event, window in windows.items() if window.length == 1 and event in named}
    place = Path(folder)
    place.mkdir(parents=True, exist_ok=True)
    write_set(
        place,
        {
            "period": files.rows_text(["period"], [[network.period]]),
            "activities": files.activities_text(network.activities),
            "fixed": files.times_text(fixed),
            "windows": files.windows_text({event: windows[event] for event in windows if event not in fixed}),
            "events": files.rows_text(["event"], [[event] for event in network.events if event not in named]),
            "times": files.times_text(times),
            "labels": labels.text() if labels != Labels() else None,
            "places": places_text(places) if places else None,
        },
    )


def load(
    folder: AnyPath,
    engine: Union[str, Engine] = "program",
    period: Optional[int] = None,
    instead: Optional[Mapping[str, Union[AnyPath, Labels, None]]] = None,
    how: Optional[Mapping[str, Any]] = None,
) -> "Bench":
    """Opens a saved folder; a period, and given files, replace the folder's own.

    `how` has further arguments of `Bench.open`. Only `activities` and `period` must exist, and no period if one is given.
    Raises OSError, FileFault and Ended.
    """
    from pespbench.client import Bench

    place = Path(folder)
    given: Dict[str, Any] = {name: path for name, path in (instead or {}).items() if path is not None}
    named = {name: path for name in ("fixed", "times", "labels") if name not in given and (path := own_file(place, name))}
    there: Dict[str, Any] = {**named, **given}
    known = period_of(own_file(place, "period") or place / "period") if period is None else period
    activities = own_file(place, "activities") or place / "activities"
    bench = Bench.open(activities, period=known, engine=engine, **(how or {}), **there)
    try:
        places = own_file(place, "places")
        bench.places = read_places(places) if places else {}
        _complete(bench, place, there.get("times"), given.get("fixed"))
        bench._session.journal.clear()
    except Refused as refusal:
        bench.close()
        raise FileFault(os.fspath(place), None, str(refusal)) from None
    except BaseException:
        bench.close()
        raise
    return bench


def own_file(folder: AnyPath, name: str) -> Optional[Path]:
    """The file of a folder, or None if missing. Raises FileFault for a link out of it, a device and a pipe.

    The sender of a folder could otherwise make a link expose other files, or a pipe block forever.
    """
    path = Path(folder) / name
    if not os.path.lexists(path):
        return None
    if Path(os.path.realpath(folder)) not in Path(os.path.realpath(path)).parents:
        raise FileFault(os.fspath(path), None, "it is a link out of its folder")
    if path.exists() and not path.is_file():
        raise FileFault(os.fspath(path), None, "it is no file")
    return path


def period_of(path: Path) -> int:
    """The period in a file. Raises OSError and FileFault."""
    periods = [period for [period] in files.values(path, files.EVENT, "")]
    if len(periods) != 1:
        raise FileFault(os.fspath(path), None, "it is no file of one period")
    return periods[0]


def _complete(bench: "Bench", place: Path, timed: Optional[AnyPath], held: Optional[AnyPath]) -> None:
    """Adds what the program reads from no file: events without activities with their times, and windows.

    Windows of events in a given file of fixed times are omitted.
    """
    listed, held_too = own_file(place, "events"), own_file(place, "windows")
    events = files.read_events(listed) if listed else []
    windows = files.read_windows(held_too) if held_too else {}
    times = {} if timed is None else files.read_times(timed)
    fixed = {} if held is None else files.read_times(held)
    commands = [f"add event {event}" for event in events]
    commands += [window_command(event, windows[event]) for event in windows if event not in fixed]
    commands += [f"time {event} {times[event] % bench.period}" for event in events if event in times]
    bench._all(commands)
