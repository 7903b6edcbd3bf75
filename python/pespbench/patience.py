"""How long to wait for an answer that is not a search's: a program that does not answer is abandoned."""

from __future__ import annotations

import os
import signal
import time
from contextlib import contextmanager
from dataclasses import dataclass
from typing import Iterable, Iterator, Optional, Union

from pespbench.faults import GivenUp
from pespbench.transport import OutOfTime

# Seconds: the wait for any answer on an idle machine, and the additional wait for each line, and each byte of a file.
LEAST, OF_A_LINE, OF_A_BYTE = 5.0, 0.002, 1e-5
# The longest additional wait for files.
MOST_OF_FILES = 60.0


@dataclass(frozen=True)
class Patience:
    """This many seconds, but at least the wait for any answer; if it is None, the wait has no limit."""

    seconds: Optional[float] = None

    @contextmanager
    def of_lines(self, count: int, deadline: Optional[float] = None) -> Iterator[Optional[float]]:
        """The time until which to wait for this many answers: the deadline if there is one, at which OutOfTime is raised.

        Raises Ended if they did not arrive in time.
        """
        if deadline is not None or self.seconds is None:
            yield deadline
            return
        limit = max(self.seconds, LEAST * business()) + OF_A_LINE * count
        try:
            yield time.monotonic() + limit
        except OutOfTime:
            text = f"pespbench: the program gave no answer within {limit:.0f} seconds, and was given up"
            raise GivenUp(-signal.SIGKILL, text) from None

    @contextmanager
    def of_files(self, paths: Iterable[Union[str, "os.PathLike[str]", None]]) -> Iterator[Optional[float]]:
        """The same for the first answer of a program that reads files. Raises Ended."""
        more = min(MOST_OF_FILES, OF_A_BYTE * sum(map(length_of, paths)))
        with self.of_lines(int(more / OF_A_LINE)) as until:
            yield until


def business() -> float:
    """How many times longer an answer may take on a machine under this load."""
    return 1 + 2 * os.getloadavg()[0] / (os.cpu_count() or 1)


def length_of(path: Union[str, "os.PathLike[str]", None]) -> int:
    """The bytes of a file, or 0 if unknown."""
    try:
        return 0 if path is None else os.path.getsize(path)
    except (OSError, ValueError):
        return 0


# A wait without limit.
PATIENT = Patience()
