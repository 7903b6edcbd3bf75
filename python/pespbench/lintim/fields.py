"""Rows of LinTim's files, by the columns that a comment above them names, and their numbers."""

from __future__ import annotations

import csv
import io
import re
from dataclasses import dataclass
from decimal import Context, Decimal, DecimalException, Inexact, InvalidOperation, Overflow
from pathlib import Path
from typing import Iterator, List, Mapping, Optional, Sequence

from pespbench.faults import FileFault
from pespbench.records import UNCUT, content

MOST_DIGITS = 9
# Columns are named in one of the first lines, of which this many are read.
FIRST_LINES, MOST_COLUMNS = 20, 30
# Numbers are not rounded: one that is too long, too great or too near 0 for that is refused.
EXACT = Context(prec=60, Emax=30, Emin=-30, traps=[InvalidOperation, Inexact, Overflow])
# The names of the columns of activities and events, in lower case with `_` between words; the last may be missing.
ACTIVITY = {
    "activity": "(activity_)?(index|id)|activity", "type": "(activity_)?type", "from": "from(_.*)?", "to": "to(_.*)?",
    "lower": "lower(_.*)?", "upper": "upper(_.*)?", "passengers": "passengers|weight",
}  # fmt: skip
EVENT = {"event": "(event_)?(index|id)|event", "type": "(event_)?type", "stop": "stop(_.*)?", "line": "line(_(index|id))?"}


@dataclass(frozen=True)
class Line:
    """A row of a file, with the line at which it ends, counted from 1."""

    path: Path
    number: int
    fields: Sequence[str]

    def fault(self, text: str) -> FileFault:
        """The fault of a row."""
        return FileFault(str(self.path), self.number, text)

    def whole(self, text: str, limits: range) -> int:
        """A number of the row without a fraction, with or without a point. Raises FileFault for any other text."""
        if text.isascii() and text.isdigit() and len(text) <= MOST_DIGITS:
            found = int(text)
        else:
            value = self.decimal(text)
            found = int(value) if value == value.to_integral_value() else limits.stop
        if found not in limits:
            raise self.fault(f"{shortened(text)} is not a whole number from {limits[0]} to {limits[-1]}")
        return found

    def decimal(self, text: str) -> Decimal:
        """A number of the row that may have a point. Raises FileFault for any other text, and for a number out of range."""
        try:
            value = EXACT.create_decimal(text)
        except InvalidOperation:
            value = Decimal("NaN")
        except DecimalException:
            raise self.fault(f"{shortened(text)} is out of range") from None
        if not value.is_finite():
            raise self.fault(f"{shortened(text)} is not a number")
        return value


def shortened(text: str) -> str:
    """A field in the text of a fault."""
    return repr(text if len(text) <= 40 else f"{text[:40]}..")


def lines_of(path: Path, least: int, titles: Optional[Mapping[str, str]] = None) -> Iterator[Line]:
    """The rows of a file. If a comment above them names all of some columns, by patterns, these come first, in that order.

    Raises:
        OSError: the file cannot be read.
        FileFault: it is too long, or not text, or a row has too few fields.
    """
    text = io.TextIOWrapper(io.BytesIO(content(path)), "utf-8", newline="")
    reader = csv.reader(text, delimiter=";", skipinitialspace=True)
    order: List[int] = []
    try:
        for fields in reader:
            fields = [each.strip() for each in fields]
            if not any(fields):
                continue
            if fields[0].startswith("#"):
                if titles and not order and reader.line_num <= FIRST_LINES:
                    order = order_of(fields[:MOST_COLUMNS], titles)
                    least = max([least, *(place + 1 for place in order)])
            elif len(fields) < least:
                raise FileFault(str(path), reader.line_num, f"wanted {least} fields")
            else:
                yield Line(path, reader.line_num, [fields[place] for place in order] or fields)
    except UnicodeDecodeError:
        raise FileFault(str(path), reader.line_num + 1, "it is not in UTF-8") from None
    except csv.Error:
        raise FileFault(str(path), reader.line_num, UNCUT) from None


def order_of(comment: Sequence[str], titles: Mapping[str, str]) -> List[int]:
    """The places of the columns that a comment names, or nothing unless it names all but the last."""
    words = [re.sub("[ -]", "_", field.strip("# ").lower()) for field in comment]
    found = [next((place for place, word in enumerate(words) if re.fullmatch(title, word)), None) for title in titles.values()]
    return [] if None in found[:-1] else [place for place in found if place is not None]
