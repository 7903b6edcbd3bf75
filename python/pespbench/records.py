"""Files of records, cut as the program cuts them (docs/FORMATS.md, *From bytes to rows*)."""

from __future__ import annotations

import csv
import io
import os
from contextlib import contextmanager
from itertools import islice, repeat
from typing import Iterable, Iterator, List, Tuple, Union

from pespbench.faults import FileFault

Path = Union[str, "os.PathLike[str]"]
MARK = b"\xef\xbb\xbf"
LONGEST_FILE = 67_108_864
# The text of a fault for a row that `csv` does not accept.
UNCUT = "it cannot be cut into fields: a field is too long, or a quote is missing"
# The number of records that are split before the first one is returned.
AT_ONCE = 1_000


def records(path: Path, encoding: str = "latin-1", has_names: bool = False) -> Iterator[Tuple[int, List[str]]]:
    """The records of a file that are neither blank nor comments, with their numbers and trimmed fields, including headers.

    In a file that `has_names` in its first column, a quoted field is not a comment. Raises OSError, and FileFault for a file
    that is too long.
    """
    for number, (record, is_quoted) in enumerate(cut(content(path), encoding, has_names), 1):
        fields = [field.strip(" \t") for field in record]
        if not fields[-1]:
            fields.pop()
        if fields and not (fields[0].startswith("#") and not (has_names and is_quoted)):
            yield number, fields


def content(path: Path) -> bytes:
    """The bytes of a file, without a byte order mark. Raises OSError, and FileFault for a file that is too long."""
    with open(path, "rb") as file:
        data = file.read(LONGEST_FILE + 1)
    if len(data) > LONGEST_FILE:
        raise FileFault(os.fspath(path), None, "file is too long")
    return data[len(MARK) :] if data.startswith(MARK) else data


def cut(data: bytes, encoding: str, has_names: bool) -> Iterator[Tuple[List[str], bool]]:
    """The fields of each nonempty record, and whether it begins with a quote, for files that `has_names`."""
    # Before Python 3.11 `csv` accepts no null characters; another character that is in no number serves as well.
    lines = io.TextIOWrapper(io.BytesIO(data.replace(b"\0", b"\1")), encoding, errors="replace", newline="")
    delimiter = ";" if b";" in data else ","
    rows = quoted(lines, delimiter) if has_names else zip(csv.reader(lines, delimiter=delimiter), repeat(False))
    while True:
        with long_fields():
            some = list(islice(rows, AT_ONCE))
        if not some:
            return
        yield from (row for row in some if row[0])


def quoted(lines: Iterable[str], delimiter: str) -> Iterator[Tuple[List[str], bool]]:
    """The fields of each record, and whether it begins with a quote."""
    held: List[str] = []

    def pulled() -> Iterator[str]:
        for line in lines:
            held.append(line)
            yield line

    for fields in csv.reader(pulled(), delimiter=delimiter):
        yield fields, held[0].startswith('"')
        held.clear()


@contextmanager
def long_fields() -> Iterator[None]:
    """In this context, a field may be as long as a file; the limit applies to the whole process."""
    usual = csv.field_size_limit(LONGEST_FILE)
    try:
        yield
    finally:
        csv.field_size_limit(usual)
