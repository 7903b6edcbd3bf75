"""Starts programs so that none outlives the process that uses it, however that ends."""

from __future__ import annotations

import functools
import os
import signal
import subprocess
import sys
import threading
from concurrent.futures import ThreadPoolExecutor
from typing import Callable, Optional, Sequence

# Of <linux/prctl.h>: the signal that a process gets when the thread that started it ends.
PR_SET_PDEATHSIG = 1


def started(words: Sequence[str]) -> "subprocess.Popen[bytes]":
    """Starts a program with pipes to its input and from its outputs. Raises OSError if it cannot be started.

    It has a session of its own, so that Ctrl-C at a terminal reaches only the client. On Linux the kernel ends it with the
    thread that started it, so that must be one that lives as long as the process.
    """
    if threading.current_thread() is threading.main_thread():
        return _start(words)
    return _lasting_thread().submit(_start, words).result()


def _start(words: Sequence[str]) -> "subprocess.Popen[bytes]":
    pipe, prctl = subprocess.PIPE, _prctl()
    # The code between the fork and the program takes no lock and imports nothing.
    bound = None if prctl is None else functools.partial(_end_with, os.getpid(), prctl)
    return subprocess.Popen(
        words, bufsize=0, stdin=pipe, stdout=pipe, stderr=pipe, start_new_session=True, preexec_fn=bound
    )  # fmt: skip


def _end_with(parent: int, prctl: Callable[[int, int], int]) -> None:
    prctl(PR_SET_PDEATHSIG, signal.SIGKILL)
    if os.getppid() != parent:
        os._exit(1)


@functools.lru_cache(maxsize=None)
def _prctl() -> Optional[Callable[[int, int], int]]:
    """The function of the C library, or None if it is missing."""
    if not sys.platform.startswith("linux"):
        return None
    try:
        import ctypes

        return ctypes.CDLL(None).prctl
    except (ImportError, OSError, AttributeError):
        return None


@functools.lru_cache(maxsize=None)
def _lasting_thread() -> ThreadPoolExecutor:
    return ThreadPoolExecutor(1, thread_name_prefix="pespbench")


# A forked process does not have its parent's threads.
os.register_at_fork(after_in_child=_lasting_thread.cache_clear)
