"""Places of stations, for people: the program never reads them.

A file of places has a row for each station, with x to the east and y to the north in any unit; semicolons, quotes and
comments are those of the other files, and it is UTF-8. A name that begins with `#` is in quotes, and is then not a comment.

    station; x; y
    Ashford; 12; 40.5
"""

from __future__ import annotations

import math
import os
import re
from fractions import Fraction
from typing import Dict, Mapping, Tuple, Union

from pespbench.curing import file_fault
from pespbench.records import records

Place = Tuple[float, float]
# Drawings are exact for places up to this distance from 0, unless all are nearer to each other; others are scaled to such a width.
FARTHEST, NARROWEST, WIDTH = 1e9, 1e-6, 1_000
HEADER = ["station", "x", "y"]
SPECIAL = re.compile('[;"\n\r]|^[ \t#]|[ \t]$')
# Digits match in only one way: a pattern with two ways tries each of them again for each digit of a long field.
NUMBER = re.compile("[+-]?([0-9]+([.][0-9]*)?|[.][0-9]+)([eE][+-]?[0-9]+)?")


def read_places(path: Union[str, "os.PathLike[str]"]) -> Dict[str, Place]:
    """The places of a file by station.

    Raises:
        OSError: the file cannot be read.
        FileFault: a row has not three fields, or a coordinate is not a number.
    """
    places: Dict[str, Place] = {}
    for record, fields in records(path, "utf-8", has_names=True):
        if fields[1:] == HEADER[1:]:
            continue
        try:
            station, x, y = fields
            places[station] = measure(x), measure(y)
        except ValueError:
            raise file_fault(path, record, "wanted station; x; y", "places") from None
    return places


def measure(text: str) -> float:
    """A finite number. Raises ValueError for any other text."""
    value = float(text) if NUMBER.fullmatch(text) else math.nan
    if not math.isfinite(value):
        raise ValueError(text)
    return value


def on_a_map(places: Mapping[str, Place]) -> Dict[str, Place]:
    """The same places, in a unit in which they can be drawn if theirs is too large or too small for that.

    Those without finite coordinates are left out.
    """
    known = {station: place for station, place in places.items() if all(map(math.isfinite, place))}
    widest = max((max(each) - min(each) for each in zip(*((Fraction(x), Fraction(y)) for x, y in known.values()))), default=Fraction(0))
    farthest = max((abs(axis) for place in known.values() for axis in place), default=0.0)
    if farthest <= FARTHEST and (not widest or widest >= NARROWEST):
        return known
    west, south = (min(Fraction(place[axis]) for place in known.values()) for axis in (0, 1))
    unit = (widest or 1) / WIDTH
    return {station: (float((Fraction(x) - west) / unit), float((Fraction(y) - south) / unit)) for station, (x, y) in known.items()}


def places_text(places: Mapping[str, Place]) -> str:
    """The file that reads as these places."""
    rows = [(quoted(station), plain(x), plain(y)) for station, (x, y) in places.items()]
    return "".join(f"{'; '.join(row)}\n" for row in [HEADER, *rows])


def quoted(name: str) -> str:
    """A name as a field, in quotes if it would otherwise be read differently."""
    return '"{}"'.format(name.replace('"', '""')) if SPECIAL.search(name) else name


def plain(value: float) -> str:
    """A number without a point if it is whole."""
    return str(int(value)) if value == int(value) and abs(value) < 1e15 else repr(value)
