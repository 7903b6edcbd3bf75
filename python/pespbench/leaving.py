"""Ctrl-C while a command starts, or when it is done: nothing needs to be saved or printed, so it ends at once."""

from __future__ import annotations

import os
import signal
import sys
from typing import NoReturn

STATUS = 128 + signal.SIGINT


def is_command() -> bool:
    """Whether this process is `pespbench-py`, or `python3 -m pespbench`, which Python 3.9 does not yet say at the start."""
    words = getattr(sys, "orig_argv", [])
    is_module = sys.argv[:1] == ["-m"] and "-m" in words and words[words.index("-m") + 1 :][:1] == ["pespbench"]
    return is_module or os.path.basename(sys.argv[0]) == "pespbench-py"


def leave_at_interrupts() -> None:
    """From now on Ctrl-C ends this process at once, with status 130; if it is ignored, as below `nohup`, that remains."""
    if signal.getsignal(signal.SIGINT) is signal.default_int_handler:
        signal.signal(signal.SIGINT, leave)


def raise_interrupts() -> bool:
    """From now on Ctrl-C raises KeyboardInterrupt again; whether it did not."""
    is_leaving = signal.getsignal(signal.SIGINT) is leave
    if is_leaving:
        signal.signal(signal.SIGINT, signal.default_int_handler)
    return is_leaving


def leave(number: int, frame: object) -> NoReturn:
    """Ends this process."""
    os._exit(STATUS)
