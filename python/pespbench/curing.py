"""The cause and the remedy of a fault in a file: UTF-16, tabs, decimal commas, a file of another kind, or no file.

The page says the same of a file's form (page/script/files/helping.js).
"""

from __future__ import annotations

import os
import re
from itertools import islice
from typing import List, Mapping, Optional

from pespbench.faults import Ended, FileFault
from pespbench.records import Path, records

UTF_16 = "The file is UTF-16. Save it as UTF-8, in a spreadsheet as “CSV UTF-8”."
TABS = "Tabs stand between its fields. Save it with semicolons between them, or with commas."
DECIMAL = "It has decimal commas. Write whole numbers, as 2, or with a point, as 2.0."
FAULT = re.compile("pespbench: (activities|fixed|times) file(?:, record ([0-9]{1,9}): | cannot be read$| is too long$)")
# The kind of each file, and how many fields its rows have.
KINDS = {"activities": "activities", "fixed": "times", "times": "times"}
WIDTHS = {"activities": 6, "times": 2}
# The first fields of each file's header.
HEADERS = {
    ("activity", "from"): "activities", ("event", "time"): "times", ("event", "first"): "windows", ("event", "line"): "labels",
    ("activity", "kind"): "labels", ("station", "x"): "places",
}  # fmt: skip
NUMBER = re.compile("[+-]?[0-9]+([.]0*)?")


def file_fault(path: Path, record: int, text: str, kind: str) -> FileFault:
    """The fault of a record of a file of some kind, with its remedy."""
    return FileFault(os.fspath(path), record, text, cure_of(path, record, kind))


def cured(ended: Ended, paths: Mapping[str, Optional[Path]]) -> Ended:
    """The end of a program, with the file and the remedy if it was a fault of one of the files."""
    fault = FAULT.match(ended.text)
    path = paths[fault[1]] if fault else None
    if fault is None or path is None:
        return ended
    cure = cure_of(path, int(fault[2]), KINDS[fault[1]]) if fault[2] else unreadable_text(path)
    return Ended(ended.status, ended.text, cure, os.fspath(path))


def unreadable_text(path: Path) -> str:
    """Why a file cannot be read, if its name alone shows it."""
    if not os.path.lexists(path):
        return "There is no such file."
    if os.path.isdir(path):
        return "It is a folder."
    return "" if os.access(path, os.R_OK) else "It may not be read."


def cure_of(path: Path, record: int, kind: str) -> str:
    """The cause and the remedy of a record's fault in a file of some kind; an empty text if unknown."""
    if not os.path.isfile(path):
        return ""
    try:
        with open(path, "rb") as file:
            if is_utf_16(file.read(200)):
                return UTF_16
        fields = next((fields for number, fields in records(path) if number == record), [""])
        found = kind_of(path)
    except (OSError, FileFault):
        return ""
    if "\t" in fields[0]:
        return TABS
    if found not in ("", kind):
        return f"It is a file of {found}, and not of {kind}. Give each file in its own place."
    return DECIMAL if has_decimal_comma(fields, WIDTHS.get(kind)) else ""


def kind_of(path: Path) -> str:
    """The kind of a file, by its header or its first row; an empty text if they do not show it. Raises OSError and FileFault."""
    for _, fields in islice(records(path), 2):
        named = named_by(fields)
        numbered = next((kind for kind, width in WIDTHS.items() if width == len(fields)), "")
        if named or (numbered and all(map(NUMBER.fullmatch, fields))):
            return named or numbered
    return ""


def is_utf_16(start: bytes) -> bool:
    """Whether a file is UTF-16, by its byte order mark or a byte of 0 at its start."""
    return start[:2] in (b"\xff\xfe", b"\xfe\xff") or 0 in start


def named_by(header: List[str]) -> str:
    """The kind of a file, by its header; an empty text if that does not show it."""
    return HEADERS.get((header[0].lower(), header[1].lower()), "") if len(header) > 1 else ""


def has_decimal_comma(fields: List[str], width: Optional[int]) -> bool:
    """Whether a decimal comma is in a field, among semicolons, or splits a number in two, among commas."""
    is_cut = width is not None and len(fields) > width and all(re.fullmatch("[+-]?[0-9]+", field) for field in fields)
    return is_cut or any(re.fullmatch("[+-]?[0-9]+,[0-9]+", field) for field in fields)
