"""Common parts of the tests: the program, folders, stand-ins, and networks that are the same in each run."""

from __future__ import annotations

import contextlib
import io
import os
import random
import shutil
import sys
import tempfile
import time
import unittest
from pathlib import Path
from typing import Any, Dict, List, Tuple, Type, TypeVar

from pespbench import Bench
from pespbench.__main__ import main

TOP = Path(__file__).resolve().parents[2]
EXAMPLES = TOP / "examples"
PROGRAM = os.path.abspath(os.environ.get("PESPBENCH") or TOP / "crates/pespbench/out/pespbench")
# The shared library in process, if there is one: tools/test_program makes it from that of tools/library.
LIBRARY = os.path.abspath(os.environ["PESPBENCH_LIB"]) if os.environ.get("PESPBENCH_LIB") else ""
# The arguments that open a bench over each engine.
OVER_PROGRAM: Dict[str, Any] = {"program": PROGRAM}
OVER_LIBRARY: Dict[str, Any] = {"engine": "library", "library": LIBRARY}
needs_library = unittest.skipUnless(LIBRARY, "there is no library in process; PESPBENCH_LIB names one")
# The factor of each limit of time, on a slow or busy machine.
PATIENCE = int(os.environ.get("PESPBENCH_PATIENCE") or 1)
# The greatest seconds to wait for something that usually happens at once: a machine may be slow, or stand still.
LONG = 100 * PATIENCE
# Seconds that are enough on a slow machine too, but not for a program that sleeps, or searches, for minutes.
SOON = 30 * PATIENCE
# With a program that is slower by a factor, which tools/test_program passes, random cases are fewer by the same.
SLOWER = int(os.environ.get("PESPBENCH_SLOWER") or 1)


class Whole:
    """An integer that is not an int, like those of other packages."""

    def __init__(self, number: int) -> None:
        self.number = number

    def __index__(self) -> int:
        return self.number

    def __hash__(self) -> int:
        return hash(self.number)

    def __eq__(self, other: object) -> bool:
        return self.number == other


class Case(unittest.TestCase):
    """A test with a folder of its own; `how` has the arguments that open a bench."""

    how = OVER_PROGRAM

    def setUp(self) -> None:
        self.folder = Path(tempfile.mkdtemp(prefix="pespbench-"))
        self.addCleanup(shutil.rmtree, self.folder)

    def two_trains(self, **files: Any) -> Bench:
        """The example of two trains at period 10."""
        bench = Bench.open(EXAMPLES / "two-trains/activities", period=10, **self.how, **files)
        self.addCleanup(bench.close)
        return bench

    def drawn(self, seed: int, events: int, activities: int, period: int = 60, room: int = 12) -> Bench:
        """The random network."""
        script = "\n".join(drawn_script(seed, events, activities, period, room))
        return Bench.from_script(script, period=period, **self.how)

    def stand_in(self, answers: str) -> Path:
        """A program that answers like the body of a function that receives a line and writes bytes by `write`."""
        body = "".join(f"    {line}\n" for line in answers.strip().splitlines())
        text = f"#!{sys.executable} -B\n{STAND_IN.replace('    BODY', body)}"
        path = self.folder / "stand-in"
        path.write_text(text)
        path.chmod(0o755)
        return path


def run_words(*words: str) -> Tuple[int, str]:
    """The exit status of a subcommand in this process, and its standard output."""
    with contextlib.redirect_stdout(io.StringIO()) as told:
        return main(list(words)), told.getvalue()


def worked(process: int) -> float:
    """The processor seconds of a process and the programs that it has started, by /proc."""
    ticks = 0
    for path in Path("/proc").glob("[0-9]*/stat"):
        with contextlib.suppress(OSError):
            fields = path.read_text().rpartition(")")[2].split()
            if process in (int(path.parent.name), int(fields[1])):
                ticks += int(fields[11]) + int(fields[12])
    return ticks / os.sysconf("SC_CLK_TCK")


def wait_for_work(process: int, before: float) -> None:
    """Waits until a process has worked for some tenths of a second more than before: then its task is running."""
    until = time.monotonic() + (LONG if Path("/proc/self/stat").exists() else 1)
    while worked(process) < before + 0.3 and time.monotonic() < until:
        time.sleep(0.05)


Kind = TypeVar("Kind", bound=Type[Case])


def over_both(case: Kind) -> Kind:
    """Makes the tests of a class run over the library too, as those of another class of its module."""
    name = f"{case.__name__}InProcess"
    other = type(name, (case,), {"how": OVER_LIBRARY, "__module__": case.__module__, "__qualname__": name})
    setattr(sys.modules[case.__module__], name, needs_library(other))
    return case


STAND_IN = '''
import os, pathlib, sys, time

EMPTY = b"# period 10 lines 0\\n"
starts = pathlib.Path(__file__).with_suffix(".starts")
starts.write_text(starts.read_text() + "s" if starts.exists() else "s")
start = len(starts.read_text())

def write(data):
    while data:
        data = data[os.write(1, data):]

def answer(line):
    BODY

for line in iter(sys.stdin.readline, ""):
    answer(line.strip())
'''


def drawn_script(seed: int, events: int, activities: int, period: int = 60, room: int = 12) -> List[str]:
    """The commands of a random network around a timetable, which all but a few spans meet."""
    draw = random.Random(seed)
    times = [draw.randrange(period) for _ in range(events)]
    lines = [f"add event {event}" for event in range(events)]
    for activity in range(activities):
        first, last = draw.sample(range(events), 2)
        lower = (times[last] - times[first]) % period - draw.randrange(room)
        upper = lower + room + draw.randrange(room)
        lines.append(f"add activity {activity} {first} {last} {lower} {upper} {draw.randrange(50)}")
    return lines


def drawn_changes(draw: random.Random, period: int, count: int) -> List[str]:
    """Command lines on a few events and activities, many of which are refused."""
    lines = []
    for _ in range(count):
        event, other, activity = draw.randrange(9), draw.randrange(9), draw.randrange(12)
        time, lower = draw.randrange(period), draw.randrange(-5, period)
        upper = lower + draw.randrange(period)
        lines.append(
            draw.choice(
                [
                    f"add event {event}",
                    f"drop event {event}",
                    f"fix {event} {time}",
                    f"window {event} {time} {draw.randrange(1, period + 1)}",
                    f"unfix {event}",
                    f"add activity {activity} {event} {other} {lower} {upper} {draw.randrange(9)}",
                    f"add activity {activity} {event} {other} {lower} {upper} {draw.randrange(9)}",
                    f"drop activity {activity}",
                    f"span {activity} {lower} {upper}",
                    f"weight {activity} {draw.randrange(9)}",
                    f"ends {activity} {event} {other}",
                    f"time {event} {time}",
                    f"untime {event}",
                    "adopt",
                ]
            )
        )
    return lines
