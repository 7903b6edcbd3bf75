"""Lines of standard input, and whether it ended while one was being answered."""

from __future__ import annotations

import fcntl
import io
import os
import select
import struct
import sys
import termios
import threading
from contextlib import contextmanager, suppress
from importlib import import_module
from typing import Callable, Iterator, Optional

from pespbench.commands import LONGEST_LINE

PIECE = 65_536
# Seconds: if the input ends this soon after the last line, a script wrote it, and waits for the answer.
AT_ONCE = 0.1
# Seconds between two checks of the input.
PAUSE = 0.2


class Given:
    """Standard input: typed at a terminal, with a history, or read as it arrives."""

    def __init__(self) -> None:
        self._file = descriptor_of_input()
        self.is_typed = sys.stdin.isatty()
        self._held = b""
        if self.is_typed:
            # `input` keeps a history then.
            with suppress(ImportError):
                import_module("readline")
        if isinstance(sys.stdin, io.TextIOWrapper):
            # A line that is not valid text is not a command, as the program replies.
            sys.stdin.reconfigure(errors="replace")

    def line(self, prompt: str) -> Optional[str]:
        """The next line, or None at the end; of a line too long for a command, a part that is too long as well."""
        if self.is_typed or self._file is None:
            try:
                return input(prompt).strip()
            except EOFError:
                return None
        line = self._read_line(self._file)
        return None if line is None else line.decode(errors="replace").strip()

    def _read_line(self, file: int) -> Optional[bytes]:
        line = b""
        while True:
            piece, end, self._held = self._held.partition(b"\n")
            line += piece[: LONGEST_LINE + 1 - len(line)]
            if end:
                return line
            self._held = os.read(file, PIECE)
            if not self._held:
                return line or None

    def is_over(self) -> bool:
        """Whether no line is left to answer, and no more can arrive."""
        if self._held or self._file is None or not select.select([self._file], [], [], 0)[0]:
            return False
        if self.is_typed:
            return bytes_in(self._file) == 0
        self._held = os.read(self._file, PIECE)
        return not self._held

    @contextmanager
    def kept_by(self, give_up: Callable[[], None]) -> Iterator["Ending"]:
        """In this context, a running command is abandoned when its user ends the input; a script is answered."""
        ending = Ending(self, give_up)
        thread = threading.Thread(target=ending.watch, name="pespbench input", daemon=True)
        try:
            thread.start()
            yield ending
        finally:
            ending.is_answered.set()
            if thread.ident is not None:
                thread.join()


class Ending:
    """The end of the input while a line is answered."""

    def __init__(self, given: Given, give_up: Callable[[], None]) -> None:
        self._given, self._give_up = given, give_up
        self.is_answered = threading.Event()
        self.has_come = False

    def watch(self) -> None:
        """Abandons the running command, each time it starts again, once the input has ended."""
        if self.is_answered.wait(AT_ONCE) or self._given.is_over():
            return
        while not self.is_answered.wait(PAUSE):
            self.has_come = self.has_come or self._given.is_over()
            if self.has_come:
                self._give_up()


def descriptor_of_input() -> Optional[int]:
    """The descriptor of standard input, or None if it is not a file of the system."""
    try:
        return sys.stdin.fileno()
    except (OSError, ValueError):
        return None


def bytes_in(file: int) -> int:
    """The number of bytes that can be read from a terminal; if it is readable and has none, it is at its end."""
    count: int = struct.unpack("i", fcntl.ioctl(file, termios.FIONREAD, bytes(4)))[0]
    return count
