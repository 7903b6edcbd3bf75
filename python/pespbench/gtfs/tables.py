"""The tables of a feed, which is a folder or an archive, and the values in their rows."""

from __future__ import annotations

import csv
import io
import os
import re
import zipfile
from dataclasses import dataclass
from pathlib import Path
from typing import Iterator, Mapping, Optional, Sequence

from pespbench.faults import FileFault
from pespbench.folders import own_file
from pespbench.records import LONGEST_FILE, MARK, UNCUT, content

TIME = re.compile("([0-9]{1,2}):([0-5][0-9]):([0-5][0-9])")


@dataclass(frozen=True)
class Row:
    """A row of a table by its titles."""

    path: str
    number: int
    values: Mapping[str, Optional[str]]

    def fault(self, text: str) -> FileFault:
        """The fault of a row."""
        return FileFault(self.path, self.number, text)

    def text(self, title: str) -> str:
        """A value, or an empty text if it is missing."""
        return (self.values.get(title) or "").strip()

    def minutes(self, title: str) -> Optional[int]:
        """The whole minutes since midnight of a time, or None if it is missing. Raises FileFault."""
        text = self.text(title)
        found = TIME.fullmatch(text)
        if text and not found:
            raise self.fault(f"{text[:40]!r} is no time as 8:05:00")
        return 60 * int(found[1]) + int(found[2]) if found else None

    def whole(self, title: str) -> int:
        """A whole number from 0 on. Raises FileFault."""
        text = self.text(title)
        if not re.fullmatch("[0-9]{1,9}", text):
            raise self.fault(f"{title} {text[:40]!r} is no whole number")
        return int(text)


class Tables:
    """The tables of a feed."""

    def __init__(self, path: Path) -> None:
        """Opens a folder, or an archive. Raises OSError and FileFault."""
        self._path = path
        try:
            self._archive = None if path.is_dir() else zipfile.ZipFile(path)
        except zipfile.BadZipFile:
            raise FileFault(str(path), None, "it is neither a folder nor a zip archive") from None

    def __enter__(self) -> Tables:
        return self

    def __exit__(self, *_: object) -> None:
        if self._archive is not None:
            self._archive.close()

    def rows(self, name: str, titles: Sequence[str], is_needed: bool = True) -> Iterator[Row]:
        """The rows of a table; none if an optional one is missing. Raises OSError, and FileFault for a missing title."""
        data, path = self._content(f"{name}.txt"), os.path.join(self._path, f"{name}.txt")
        if data is None:
            if is_needed:
                raise FileFault(str(self._path), None, f"there is no {name}.txt")
            return
        reader = csv.DictReader(io.TextIOWrapper(io.BytesIO(data), "utf-8", errors="replace", newline=""))
        try:
            missing = [title for title in titles if title not in (reader.fieldnames or [])]
            if missing:
                raise FileFault(path, 1, f"there is no column {missing[0]}")
            for row in reader:
                yield Row(path, reader.line_num, row)
        except csv.Error:
            raise FileFault(path, max(1, reader.line_num), UNCUT) from None

    def _content(self, name: str) -> Optional[bytes]:
        """The bytes of a file of the feed, or None if it is missing."""
        if self._archive is None:
            path = own_file(self._path, name)
            return None if path is None else content(path)
        try:
            with self._archive.open(name) as file:
                data = file.read(LONGEST_FILE + 1)
        except KeyError:
            return None
        except (zipfile.BadZipFile, NotImplementedError, RuntimeError):
            raise FileFault(str(self._path), None, f"{name} in it is damaged, or packed with a password or in another way than zip does") from None
        if len(data) > LONGEST_FILE:
            raise FileFault(str(self._path), None, f"{name} is too long")
        return data[len(MARK) :] if data.startswith(MARK) else data
