"""Reports on a running search, and the line at a terminal that shows them."""

from __future__ import annotations

import sys
import threading
import time
from typing import Optional, TextIO

from pespbench.answers import Stopped
from pespbench.progress import Progress


class Watch:
    """Receives the results of a search; `best` is the best timetable so far, with a cost of None if there is none."""

    def __init__(self) -> None:
        self.best = Stopped()
        self.bound: Optional[int] = None
        self.parts = ""

    def __call__(self, progress: Progress) -> None:
        """The result of a search."""
        self.take(Stopped(progress.cost, progress.times or {}))
        if progress.lower_bound is not None:
            self.take_bound(progress.lower_bound)

    def take(self, found: Stopped) -> None:
        """A timetable that meets everything; it is the best one if it is cheaper than all before."""
        if found.is_below(self.best.cost):
            self.best = found

    def take_bound(self, cost: int) -> None:
        """No timetable that meets everything is cheaper than this."""
        self.bound = cost

    def take_parts(self, done: int, total: int) -> None:
        """This many parts of a search are done."""
        self.parts = f"{done} of {total} parts"


class Line(Watch):
    """Shows it in one line on standard error, rewritten each second, if that is a terminal."""

    def __init__(self, stream: Optional[TextIO] = None) -> None:
        super().__init__()
        self._stream = sys.stderr if stream is None else stream
        self._is_shown = self._stream.isatty()
        self._began, self._width = time.monotonic(), 0
        self._is_over = threading.Event()
        self._ticker = threading.Thread(target=self._tick, daemon=True)

    def __enter__(self) -> "Line":
        if self._is_shown:
            self._show("")
            self._ticker.start()
        return self

    def __exit__(self, *_: object) -> None:
        """Ends the line; later output is below it."""
        if self._is_shown:
            self._is_over.set()
            self._ticker.join()
            self._show("\n")

    def text(self) -> str:
        """The present text of the line."""
        best = "no timetable yet" if self.best.cost is None else f"best cost {self.best.cost:,}"
        bound = None if self.bound is None else f"bound {self.bound:,}"
        return ", ".join(filter(None, [f"{time.monotonic() - self._began:.0f} s", best, bound, self.parts]))

    def _tick(self) -> None:
        while not self._is_over.wait(1):
            self._show("")

    def _show(self, end: str) -> None:
        text = self.text()
        # Blanks overwrite the rest of a longer text.
        blanks = " " * (self._width - len(text))
        self._width = len(text)
        try:
            self._stream.write(f"\r{text}{blanks}{end}")
            self._stream.flush()
        except OSError:
            # The terminal is gone; the search continues.
            self._is_shown = False
