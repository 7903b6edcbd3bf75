"""The accepted changes, so that they can be undone: all of them, or only the last ones."""

from __future__ import annotations

from collections import deque
from contextlib import contextmanager
from typing import Deque, Iterator, List, NamedTuple, Optional, Tuple, Union

from pespbench.faults import NotKept, WrongWords


class Change(NamedTuple):
    """The commands that were accepted as one change, and those that undo it, in their order."""

    commands: Tuple[str, ...]
    back: Tuple[str, ...]


# A set time takes little memory: the event, its time, and the time before.
Moved = Tuple[int, int, Optional[int]]


def change_of(entry: Union[Change, Moved]) -> Change:
    """A change of the journal, as commands."""
    if isinstance(entry, Change):
        return entry
    event, time, before = entry
    return Change((f"time {event} {time}",), (f"untime {event}" if before is None else f"time {event} {before}",))


class Journal:
    """One change after another, of which the last `most` are kept, or all if that is None.

    A place is the number of changes before it, including those that are no longer kept.
    """

    def __init__(self, most: Optional[int] = None) -> None:
        self.most = most
        self._kept: Deque[Union[Change, Moved]] = deque()
        # The number of changes before those that are kept.
        self._gone = 0
        # How many callers need all changes from now on; meanwhile none is dropped.
        self._holders = 0

    def __len__(self) -> int:
        return self._gone + len(self._kept)

    def commands(self) -> List[str]:
        """The commands of the changes that are kept."""
        return [command for entry in self._kept for command in change_of(entry).commands]

    def append(self, entry: Union[Change, Moved]) -> None:
        """Adds a change, and drops the first one if there are too many."""
        self._kept.append(entry)
        if self.most is not None:
            self._trim(self.most)

    def _trim(self, most: int) -> None:
        while len(self._kept) > most and not self._holders:
            self._kept.popleft()
            self._gone += 1

    @contextmanager
    def held(self) -> Iterator[int]:
        """In this context, all changes are kept; yields the place of the first."""
        self._holders += 1
        try:
            yield len(self)
        finally:
            self._holders -= 1
            if self.most is not None:
                self._trim(self.most)

    def take_out(self, mark: int) -> Change:
        """Removes the changes above a place, and returns them as one. Raises NotKept if some of them are no longer kept."""
        if mark < self._gone:
            raise NotKept(self.most or 0)
        taken = [change_of(self._kept.pop()) for _ in range(len(self) - mark)]
        commands = tuple(command for change in reversed(taken) for command in change.commands)
        return Change(commands, tuple(command for change in taken for command in change.back))

    def join(self, mark: int) -> None:
        """Joins the changes above a place into one. Raises NotKept if some of them are no longer kept."""
        if len(self) > mark:
            self.append(self.take_out(mark))

    def clear(self) -> None:
        """Empties the journal."""
        self._kept.clear()
        self._gone = 0


def journal_of(kept: Union[int, str]) -> Journal:
    """A journal of all changes (`all`), of a number of the last ones, or of none (`none`). Raises WrongWords for anything else."""
    if kept == "all" or kept == "none":
        return Journal(None if kept == "all" else 0)
    if isinstance(kept, int) and kept >= 0:
        return Journal(kept)
    raise WrongWords(f"a journal keeps `all`, `none` or a number of changes, and not {kept!r}")
