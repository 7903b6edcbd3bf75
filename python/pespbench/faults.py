"""Exceptions: for the program's refusals, its end, and faulty files."""

from __future__ import annotations

import errno
import os
from typing import Optional

from pespbench.terminal import shown


class PespbenchError(Exception):
    """The base of the package's own exceptions."""


class Refused(PespbenchError):
    """The program refused a command, and nothing has changed.

    `number` is that of the refusal (docs/FORMATS.md, *Refusals*); `event` and `activity` are those that the reply names, or
    None. `str` is the reply.
    """

    def __init__(self, number: int, event: Optional[int], activity: Optional[int], text: str) -> None:
        super().__init__(number, event, activity, text)
        self.number = number
        self.event = event
        self.activity = activity
        self.text = text

    def __str__(self) -> str:
        return self.text


class Fault(PespbenchError):
    """A line is not a command, and nothing has changed.

    `word` is the place of the faulty word, counted from 1, or None if the reply names none. `str` is the reply.
    """

    def __init__(self, word: Optional[int], text: str) -> None:
        super().__init__(word, text)
        self.word = word
        self.text = text

    def __str__(self) -> str:
        return self.text


class Ended(PespbenchError):
    """The program ended before it answered.

    `status` is its exit status, negative if a signal ended it; `text` is its standard error. For a fault of a file `path` is the
    file, and `cure` names cause and remedy, if known; otherwise they are empty. Accepted changes are kept: the next use of the bench restarts
    the program. The library reports the same status and text where the program would end.
    """

    def __init__(self, status: int, text: str, cure: str = "", path: str = "") -> None:
        super().__init__(status, text, cure, path)
        self.status = status
        self.text = text
        self.cure = cure
        self.path = path

    def __str__(self) -> str:
        text = self.text.replace(" file", f" file {shown(self.path)}", 1) if self.path else self.text
        return with_cure(text or f"the program ended with status {self.status} and said nothing", self.cure)


class GivenUp(Ended):
    """The program did not answer in time, and was killed."""


class BadReply(PespbenchError):
    """The program wrote a line that is not a reply of docs/FORMATS.md. `text` is the line."""

    def __init__(self, text: str) -> None:
        super().__init__(text)
        self.text = text

    def __str__(self) -> str:
        return f"no reply of pespbench: {self.text[:200]!r}"


class NoLibrary(PespbenchError):
    """The library in process is missing, or cannot be used. `str` names the places searched, and the remedy."""


class NotKept(PespbenchError, ValueError):
    """A change cannot be undone, because the journal keeps only the last `most`, and it is an earlier one."""

    def __init__(self, most: int) -> None:
        super().__init__(most)
        self.most = most

    def __str__(self) -> str:
        kept = f"the last {self.most} changes alone" if self.most else "no changes"
        return f"an earlier change cannot be taken back: the journal keeps {kept}"


class WrongWords(PespbenchError, ValueError):
    """A request for something that does not exist. `str` names it."""


class FileFault(PespbenchError):
    """A faulty file.

    `path` is the file; `record` counts its records from 1, and is None for the whole file. `cure` names the cause and the
    remedy, if known, and is otherwise empty.
    """

    def __init__(self, path: str, record: Optional[int], text: str, cure: str = "") -> None:
        super().__init__(path, record, text, cure)
        self.path = path
        self.record = record
        self.text = text
        self.cure = cure

    def __str__(self) -> str:
        place = "" if self.record is None else f", record {self.record}"
        return with_cure(f"{shown(self.path)}{place}: {self.text}", self.cure)


def with_cure(text: str, cure: str) -> str:
    """The fault, followed by its remedy if that is known."""
    return f"{text}. {cure}" if cure else text


# The meaning of the system's errors for the file that they name, by class or number.
MEANINGS = (
    (FileNotFoundError, "there is no file {}"), (IsADirectoryError, "{} is a folder, and no file"), (NotADirectoryError, "{} is below what is no folder"),
    (FileExistsError, "{} is there already"), (PermissionError, "{} may not be read or written"),
)  # fmt: skip
NUMBERED = {
    errno.ENOSPC: "there is no room for {} on its disk", errno.EDQUOT: "there is no room for {} on its disk", errno.EROFS: "{} is on a disk that may not be written",
    errno.ENAMETOOLONG: "{} is too long a name", errno.ELOOP: "{} is a link that leads back to itself", errno.ENOTEMPTY: "{} is a folder that is not empty",
}  # fmt: skip
OTHERS = "{} cannot be read or written"


def text_of(fault: Exception) -> str:
    """The text of a fault: an error of the system is described in words, with the file that it names."""
    if not isinstance(fault, OSError) or fault.strerror is None:
        return str(fault)
    form = next((form for kind, form in MEANINGS if isinstance(fault, kind)), NUMBERED.get(fault.errno or 0, OTHERS))
    return form.format("a file" if fault.filename is None else name_of(fault.filename))


def name_of(file: object) -> str:
    """The name of a file in an error of the system."""
    return os.fsdecode(file) if isinstance(file, (str, bytes, os.PathLike)) else str(file)
