"""Runs with a limit of processor seconds."""

import os
import resource
import subprocess
import tempfile
from pathlib import Path
from typing import NamedTuple, Optional, Sequence, Union


class Ran(NamedTuple):
    """The output, the processor seconds, or none if it failed or exceeded the limit, and the memory in kB."""

    printed: str
    seconds: Optional[float]
    memory: int


def run_limited(words: Sequence[object], given: Union[Path, str], told: Path, most: int) -> Ran:
    """A run within this many seconds.

    Processor seconds, and not clock time, so that load does not matter. /usr/bin/time reports the memory, since a process
    that Python starts first has that of Python.
    """
    timed = ["/usr/bin/time", "-q", "-f", "%M", "-o", str(told), *map(str, words)]
    with open(given, "rb") as file, tempfile.TemporaryFile() as out:
        process = subprocess.Popen(timed, stdin=file, stdout=out, stderr=subprocess.DEVNULL, preexec_fn=lambda: resource.setrlimit(resource.RLIMIT_CPU, (most, most)))
        _, status, used = os.wait4(process.pid, 0)
        process.returncode = os.waitstatus_to_exitcode(status)
        out.seek(0)
        printed = out.read().decode()
    if process.returncode != 0:
        return Ran(printed, None, 0)
    return Ran(printed, used.ru_utime + used.ru_stime, int(told.read_text()))


def shown(seconds: Optional[float], most: int) -> str:
    return f"> {most}" if seconds is None else f"{seconds:.2f}"
