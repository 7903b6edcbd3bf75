"""Files are written whole or not at all, alone or as the set of a folder.

Each text is written beside its target, under a fresh name that cannot be a link, and synced; when all are, they replace
their targets one after the other. If one cannot, the earlier ones are restored. POSIX replaces one file at a time: whoever
kills the process, or reads the folder, in the moment between the first and the last finds some old and some new files, each
of them whole. What is not a regular file (a device, a pipe) is written directly.
"""

from __future__ import annotations

import errno
import os
import secrets
import stat
from contextlib import contextmanager, suppress
from dataclasses import dataclass
from typing import Iterator, Mapping, Optional, Union

Path = Union[str, "os.PathLike[str]"]
# An existing file at a fresh name is never opened, and a child process that starts meanwhile does not inherit the file.
FRESH = os.O_WRONLY | os.O_CREAT | os.O_EXCL | os.O_NOFOLLOW | os.O_CLOEXEC


def write_text(path: Path, text: str) -> None:
    """Writes a file. A link is followed, as by a shell, so its target is not replaced as a whole. Raises OSError."""
    name = os.fspath(path)
    if os.path.islink(name):
        write_in_place(name, text)
    else:
        write_all({name: text})


def write_set(folder: Path, texts: Mapping[str, Optional[str]]) -> None:
    """Writes the files of a folder by their names; those whose text is None are removed, once all others exist.

    The file replaces a link in the folder, whose target does not change. Raises OSError.
    """
    places = {name: os.path.join(os.fspath(folder), name) for name in texts}
    write_all({places[name]: text for name, text in texts.items() if text is not None})
    for name, text in texts.items():
        if text is None:
            with suppress(FileNotFoundError):
                os.unlink(places[name])
    sync_folder(os.fspath(folder))


@dataclass
class Replacing:
    """A file that replaces another: the name under which it is written, and one by which the other is restored."""

    path: str
    mode: Optional[int]
    fresh: str = ""
    other: str = ""

    def write(self, text: str) -> None:
        """Writes the text beside the target, to the device, with the permissions of an existing file."""
        self.fresh = fresh_name(self.path)
        descriptor = os.open(self.fresh, FRESH, 0o666)
        with os.fdopen(descriptor, "w", encoding="utf-8", newline="") as file:
            if self.mode is not None and stat.S_ISREG(self.mode):
                os.fchmod(descriptor, stat.S_IMODE(self.mode) & 0o777)
            file.write(text)
            file.flush()
            os.fsync(descriptor)

    def take_place(self) -> None:
        """Replaces the target; an existing file gets another name, except on a device without links."""
        if self.mode is not None:
            self.other = fresh_name(self.path)
            with suppress(OSError):
                os.link(self.path, self.other, follow_symlinks=False)
        os.replace(self.fresh, self.path)

    def put_back(self) -> None:
        """Restores the target, if it was replaced."""
        if not self.fresh or os.path.lexists(self.fresh):
            return
        with suppress(OSError):
            if self.mode is None:
                os.unlink(self.path)
            else:
                os.replace(self.other, self.path)

    def clear(self) -> None:
        """Removes the files beside the target."""
        for name in filter(None, [self.fresh, self.other]):
            with suppress(OSError):
                os.unlink(name)


def write_all(texts: Mapping[str, str]) -> None:
    """Writes all, or none of those that are replaced: regular files and links."""
    modes = {path: mode_of(path) for path in texts}
    replaced = [Replacing(path, mode) for path, mode in modes.items() if is_replaced(mode)]
    try:
        for each in replaced:
            with naming(each.path):
                each.write(texts[each.path])
        for path, mode in modes.items():
            if not is_replaced(mode):
                write_in_place(path, texts[path])
        for each in replaced:
            with naming(each.path):
                each.take_place()
    except BaseException:
        for each in reversed(replaced):
            each.put_back()
        raise
    finally:
        for each in replaced:
            each.clear()
    for folder in {os.path.dirname(each.path) for each in replaced}:
        sync_folder(folder)


@contextmanager
def naming(path: str) -> Iterator[None]:
    """In this context, an error names the file to be written, not its temporary name. Raises OSError."""
    try:
        yield
    except OSError as fault:
        if isinstance(fault, FileNotFoundError) and not os.path.isdir(os.path.dirname(path) or os.curdir):
            raise NotADirectoryError(errno.ENOTDIR, os.strerror(errno.ENOTDIR), path) from None
        fault.filename = path
        raise


def mode_of(path: str) -> Optional[int]:
    """The mode of the file at a path, of a link itself; None if there is none. Raises IsADirectoryError for a folder."""
    try:
        mode = os.lstat(path).st_mode
    except FileNotFoundError:
        return None
    if stat.S_ISDIR(mode):
        raise IsADirectoryError(errno.EISDIR, os.strerror(errno.EISDIR), path)
    return mode


def is_replaced(mode: Optional[int]) -> bool:
    """Whether a new file replaces what exists at a path, by its mode."""
    return mode is None or stat.S_ISREG(mode) or stat.S_ISLNK(mode)


def write_in_place(path: str, text: str) -> None:
    """Writes to the existing file at a path, such as a device or a pipe."""
    with open(path, "w", encoding="utf-8", newline="") as file:
        file.write(text)


def fresh_name(path: str) -> str:
    """An unpredictable name beside a path."""
    return os.path.join(os.path.dirname(path), f".pespbench-{secrets.token_hex(8)}")


def sync_folder(folder: str) -> None:
    """Syncs the names of a folder, if its device supports that."""
    with suppress(OSError):
        descriptor = os.open(folder or os.curdir, os.O_RDONLY | os.O_CLOEXEC)
        try:
            os.fsync(descriptor)
        finally:
            os.close(descriptor)
