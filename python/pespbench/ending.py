"""Signals that end a command: SIGTERM and SIGHUP are raised as exceptions, like Ctrl-C, so that it ends in order."""

from __future__ import annotations

import signal
import threading
from contextlib import contextmanager
from types import FrameType
from typing import Iterator, Optional, Sequence

SIGNALS = (signal.SIGTERM, signal.SIGHUP)


class Terminated(BaseException):
    """SIGTERM or SIGHUP came; `number` is that of the signal."""

    def __init__(self, number: int) -> None:
        super().__init__(number)
        self.number = number


# The exceptions that end a search early; what it found until then is kept.
INTERRUPTS = (KeyboardInterrupt, Terminated)


def status_of(interrupt: BaseException) -> int:
    """The exit status of a command that one of these ended: 128 plus the number of the signal."""
    return 128 + (interrupt.number if isinstance(interrupt, Terminated) else signal.SIGINT)


@contextmanager
def terminated() -> Iterator[None]:
    """In this context the first SIGTERM or SIGHUP raises Terminated; an ignored one, as below `nohup`, remains ignored."""
    numbers = [number for number in SIGNALS if signal.getsignal(number) is signal.SIG_DFL]
    with _handled(numbers, _terminate):
        yield


@contextmanager
def uninterrupted() -> Iterator[None]:
    """In this context Ctrl-C, SIGTERM and SIGHUP are ignored: for short steps that must be complete."""
    with _handled([signal.SIGINT, *SIGNALS], signal.SIG_IGN):
        yield


@contextmanager
def _handled(numbers: Sequence[signal.Signals], handler: "signal._HANDLER") -> Iterator[None]:
    """Handles signals in this context, if this thread may."""
    if threading.current_thread() is not threading.main_thread():
        yield
        return
    before = {number: signal.signal(number, handler) for number in numbers}
    try:
        yield
    finally:
        for number, old in before.items():
            signal.signal(number, old)


def _terminate(number: int, _: Optional[FrameType]) -> None:
    for each in SIGNALS:
        signal.signal(each, signal.SIG_IGN)
    raise Terminated(number)
