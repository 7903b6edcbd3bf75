"""Files of activities, fixed times and times, read as the program reads them, and their texts (docs/FORMATS.md, *Files*).

Events and activities are numbers, times and bounds whole units of time. FileFault reports a faulty file, with the
record and in the words of the program. Only the program limits the number of rows.
"""

from __future__ import annotations

import re
from typing import Callable, Dict, Iterable, Iterator, List, Mapping, Sequence, Tuple

from pespbench.curing import file_fault
from pespbench.network import Activity, Window
from pespbench.records import Path, records

NUMBERS = range(0, 1_000_000_000)
BOUNDS = range(-1_000_000, 1_000_001)
WEIGHTS = range(0, 1_000_000_001)
TIMES = range(-1_000_000_000, 1_000_000_001)
RESIDUES = range(0, 65_536)


def rows(path: Path) -> Iterator[Tuple[int, List[str]]]:
    """The rows of a file with their record numbers: a first record that begins with a letter is the header."""
    for place, (number, fields) in enumerate(records(path)):
        if place or not re.match("[A-Za-z]", fields[0]):
            yield number, fields


def number_in(place: int, text: str, limits: range) -> int:
    """The number in field `place`. Raises ValueError with the text of its fault."""
    if not re.fullmatch("[+-]?[0-9]+", text):
        raise ValueError(f"field {place} is not a number")
    digits = text.lstrip("+-").lstrip("0")
    # Fourteen digits are beyond all limits, whatever follows them.
    value = int(digits[:14] or "0") * (-1 if text.startswith("-") else 1)
    if value not in limits:
        raise ValueError(f"field {place} is out of range")
    return value


def weight_in(place: int, text: str, limits: range) -> int:
    """The weight in field `place`, which may have a point followed by zeros. Raises ValueError."""
    whole, point, decimals = text.partition(".")
    if point and not re.fullmatch("[+-]?[0-9]+", whole) or not re.fullmatch("[0-9]*", decimals):
        raise ValueError(f"field {place} is not a number")
    if decimals.strip("0"):
        raise ValueError("weight has a fraction")
    return number_in(place, whole, limits)


Column = Tuple[Callable[[int, str, range], int], range]
ACTIVITY: Sequence[Column] = [*[(number_in, NUMBERS)] * 3, *[(number_in, BOUNDS)] * 2, (weight_in, WEIGHTS)]
TIME: Sequence[Column] = [(number_in, NUMBERS), (number_in, TIMES)]
WINDOW: Sequence[Column] = [(number_in, NUMBERS), (number_in, RESIDUES), (number_in, RESIDUES)]
EVENT: Sequence[Column] = [(number_in, NUMBERS)]
# What the rows of a file list, by their number of columns.
KINDS = {6: "activities", 3: "windows", 2: "times", 1: "numbers"}


def values(path: Path, columns: Sequence[Column], twice: str) -> Iterator[List[int]]:
    """The numbers of each row; `twice` is the text for a repeated first number. Raises OSError and FileFault."""
    seen = set()
    for record, fields in rows(path):
        try:
            if len(fields) != len(columns):
                raise ValueError("wrong number of fields")
            row = [read(place, text, limits) for place, (text, (read, limits)) in enumerate(zip(fields, columns), 1)]
            if columns is ACTIVITY and row[3] > row[4]:
                raise ValueError("lower bound above upper bound")
            if row[0] in seen:
                raise ValueError(twice)
        except ValueError as fault:
            raise file_fault(path, record, str(fault), KINDS[len(columns)]) from None
        seen.add(row[0])
        yield row


def read_activities(path: Path) -> Dict[int, Activity]:
    """The activities of a file, by number, in the file's order. Raises OSError and FileFault."""
    listed = (Activity(*row) for row in values(path, ACTIVITY, "activity number is repeated"))
    return {activity.number: activity for activity in listed}


def read_times(path: Path) -> Dict[int, int]:
    """The times, or fixed times, of a file by event, as written: not modulo a period. Raises OSError and FileFault."""
    return {event: time for event, time in values(path, TIME, "event is repeated")}


def read_windows(path: Path) -> Dict[int, Window]:
    """The windows of a file `event; first; length`, by event. Raises OSError and FileFault."""
    return {event: Window(first, length) for event, first, length in values(path, WINDOW, "event is repeated")}


def read_events(path: Path) -> List[int]:
    """The events of a file of one column. Raises OSError and FileFault."""
    return [event for [event] in values(path, EVENT, "event is repeated")]


def rows_text(header: Sequence[str], listed: Iterable[Sequence[int]]) -> str:
    """The text of a file with a header and rows of numbers."""
    return "".join(f"{line}\n" for line in ["; ".join(header), *("; ".join(map(str, row)) for row in listed)])


def activities_text(activities: Mapping[int, Activity]) -> str:
    """The text of a file of activities, ascending by number."""
    listed = [activities[number] for number in sorted(activities)]
    fields = [(each.number, each.from_event, each.to_event, each.lower, each.upper, each.weight) for each in listed]
    return rows_text(["activity", "from", "to", "lower", "upper", "weight"], fields)


def times_text(times: Mapping[int, int]) -> str:
    """The text of a file of times, or of fixed times, ascending by event."""
    return rows_text(["event", "time"], sorted(times.items()))


def windows_text(windows: Mapping[int, Window]) -> str:
    """The text of a file of windows, ascending by event."""
    return rows_text(["event", "first", "length"], [(event, windows[event].first, windows[event].length) for event in sorted(windows)])
