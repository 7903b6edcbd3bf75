"""A running program and its pipes: lines go in while replies come out, so that neither side blocks the other."""

from __future__ import annotations

import os
import selectors
import shutil
import signal
import subprocess
import time
import weakref
from contextlib import suppress
from typing import Iterator, List, Optional, Sequence, Tuple, Union

from pespbench.commands import MOST_LINES
from pespbench.faults import BadReply, Ended
from pespbench.replies import Assembler
from pespbench.starting import started
from pespbench.transport import OutOfTime, Transport

PIECE = 65_536
# Seconds: how long a program may take to end after it was told to, or closed its output.
PATIENCE = 2.0
# This many bytes of its standard error are kept; the rest is read and dropped, so that it never fills a pipe.
MOST_SAID = 8_192


def find_program(program: Union[str, "os.PathLike[str]", None]) -> str:
    """The program to run: the given one, else that of the environment's PESPBENCH, else `pespbench` on the path.

    Raises FileNotFoundError if there is none.
    """
    wanted = os.fspath(program) if program is not None else os.environ.get("PESPBENCH") or "pespbench"
    found = shutil.which(wanted)
    if found is None:
        raise FileNotFoundError(f"there is no program {wanted}; name it by program=, by PESPBENCH, or put it on the path")
    return os.path.abspath(found)


class Process(Transport):
    """A running program. It has a session of its own, so that Ctrl-C at a terminal reaches only the client."""

    def __init__(self, words: Sequence[str]) -> None:
        """Starts it. Raises OSError if it cannot be started."""
        self._child = started(words)
        assert self._child.stdin is not None and self._child.stdout is not None and self._child.stderr is not None
        self._input, self._output, self._errors = self._child.stdin, self._child.stdout, self._child.stderr
        os.set_blocking(self._input.fileno(), False)
        os.set_blocking(self._errors.fileno(), False)
        self._selector = selectors.PollSelector()
        self._selector.register(self._output, selectors.EVENT_READ)
        self._selector.register(self._errors, selectors.EVENT_READ)
        self._said = b""
        self._assembler = Assembler()
        self._lines = 0
        # A program that nobody closed ends with its object, or with the interpreter.
        self._let_go = weakref.finalize(self, let_go, self._child, self._selector, os.getpid())
        _running.add(self)

    def replies(self, commands: Sequence[str], deadline: Optional[float] = None) -> Iterator[List[str]]:
        """Sends commands, and yields the reply to each as it arrives.

        If the caller stops before the last, replies remain in the pipe. Raises Ended if the program ends, OutOfTime at the
        deadline, and BadReply, also for unexpected output.
        """
        self._want_silence()
        self._lines += len(commands)
        rest = self._write(memoryview("".join(f"{command}\n" for command in commands).encode()))
        wanted = len(commands)
        while wanted:
            data, rest = self._move(rest, deadline)
            came = list(self._assembler.feed(data))
            wanted -= len(came)
            if not wanted:
                self._want_silence()
            if wanted < 0 or not wanted and self._assembler.is_within_reply():
                raise BadReply(f"more than was asked for, after {came[0][0]}")
            yield from came

    def _want_silence(self) -> None:
        """Raises BadReply if there is unexpected output."""
        is_ready = any(key.fileobj is self._output for key, _ in self._selector.select(0))
        data = os.read(self._output.fileno(), PIECE) if is_ready else b""
        if data:
            raise BadReply(f"more than was asked for: {data.decode(errors='replace').strip()}")

    def _move(self, rest: memoryview, deadline: Optional[float]) -> Tuple[bytes, memoryview]:
        """Waits until there is something to read or room to write; returns what was read, and what remains to be written."""
        if rest:
            self._selector.register(self._input, selectors.EVENT_WRITE)
        try:
            left = None if deadline is None else deadline - time.monotonic()
            if left is not None and left <= 0:
                raise OutOfTime
            ready = [key.fileobj for key, _ in self._selector.select(left)]
        finally:
            if rest:
                self._selector.unregister(self._input)
        if self._errors in ready and not self._listen():
            self._selector.unregister(self._errors)
        data = b""
        if self._output in ready:
            data = os.read(self._output.fileno(), PIECE)
            if not data:
                raise self._ended()
        return data, self._write(rest) if self._input in ready else rest

    def _listen(self) -> bool:
        """Reads a piece of standard error; whether there may be more."""
        try:
            piece = os.read(self._errors.fileno(), PIECE)
        except BlockingIOError:
            return True
        self._said += piece[: MOST_SAID - len(self._said)]
        return bool(piece)

    def _write(self, rest: memoryview) -> memoryview:
        """Writes as much as there is room for, and returns the rest."""
        place = 0
        try:
            while place < len(rest):
                place += os.write(self._input.fileno(), rest[place : place + PIECE])
        except BlockingIOError:
            return rest[place:]
        except BrokenPipeError:
            # The end of the program is reported when its replies end.
            return rest[:0]
        return rest[:0]

    def _ended(self) -> Ended:
        try:
            status = self._child.wait(PATIENCE)
        except subprocess.TimeoutExpired:
            kill(self._child)
            status = self._child.wait()
        # The whole standard error is in the pipe, which holds less than a piece, unless another process has it open too.
        self._listen()
        return Ended(status, self._said.decode(errors="replace").strip())

    def is_full(self, lines: int) -> bool:
        """Whether the program would reach its limit of lines with this many more."""
        return self._lines + lines > MOST_LINES

    def close(self) -> None:
        """Ends the program by the end of its input, and by force if that takes too long."""
        self._input.close()
        try:
            self._child.wait(PATIENCE)
        except subprocess.TimeoutExpired:
            pass
        self.kill()

    def kill(self) -> None:
        """Ends the program by force."""
        self._let_go()

    def end(self) -> None:
        """Ends the program by force, but does not close its pipes."""
        kill(self._child)


# The programs of this process; a worker that is ended ends these first.
_running: "weakref.WeakSet[Process]" = weakref.WeakSet()


def kill_all() -> None:
    """Ends all programs of this process by force; any thread may call it. They cannot be used afterwards."""
    for process in list(_running):
        process.end()


def kill(child: "subprocess.Popen[bytes]") -> None:
    """Ends a program by force, with all processes that it started in its session."""
    if child.poll() is None:
        with suppress(ProcessLookupError, PermissionError):
            os.killpg(child.pid, signal.SIGKILL)
        child.kill()


def let_go(child: "subprocess.Popen[bytes]", selector: selectors.BaseSelector, owner: int) -> None:
    """Ends a program by force, and closes its pipes; a forked process leaves its parent's program alone."""
    if os.getpid() == owner:
        kill(child)
        child.wait()
    else:
        # So the interpreter neither waits for it, nor warns that it still runs.
        child.returncode = 0
    selector.close()
    for file in (child.stdin, child.stdout, child.stderr):
        if file is not None:
            file.close()
