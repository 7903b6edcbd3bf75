"""However a command that searches is ended, nothing that it started continues."""

from __future__ import annotations

import os
import signal
import subprocess
import sys
import time
import unittest
import uuid
from functools import partial
from pathlib import Path
from typing import Callable, Dict, List, Set

from tests.common import LONG, TOP, Case

# A program whose searches never end, and which records that it searches.
SEARCHES = r"""
if line == "dump":
    write(b"# period 60 lines 3\nadd event 1\nadd event 2\nadd activity 1 1 2 3 9 2\n")
elif line.startswith(("try", "optimum")):
    pathlib.Path(__file__).with_name(f"{os.environ['RUN']}.{os.getpid()}").touch()
    time.sleep(600)
else:
    write(b"ok\n")
"""
VARIANTS = """
import sys
from concurrent.futures import ThreadPoolExecutor
from pespbench import Bench, variants

if __name__ == "__main__":
    with Bench.open(None, program=sys.argv[2]) as bench:
        if sys.argv[1] == "processes":
            variants(bench, [[], []], workers=2)
        else:
            with ThreadPoolExecutor(2) as executor:
                variants(bench, [[]] * 9, executor=executor)
"""
# How many programs search at once in each command.
SEARCHING = {"search": 1, "search --parts": 2, "shell": 1, "variants over processes": 2, "variants over threads": 2}
STATUSES = {signal.SIGINT: 130, signal.SIGTERM: 143, signal.SIGHUP: 129, signal.SIGKILL: -9}


@unittest.skipUnless(Path("/proc/self/environ").exists(), "processes are found by /proc")
class Endings(Case):
    """Commands that receive a signal while they search."""

    def setUp(self) -> None:
        super().setUp()
        self.program = self.stand_in(SEARCHES)
        (self.folder / "variants.py").write_text(VARIANTS)
        self.runs: Dict[str, str] = {}

    def started(self, name: str) -> "subprocess.Popen[bytes]":
        """A command, in a session of its own like at a terminal; its environment marks all processes that it starts."""
        self.runs[name] = uuid.uuid4().hex
        environment = {**os.environ, "RUN": self.runs[name], "PYTHONPATH": str(TOP / "python")}
        words = ["-m", "pespbench", *name.split(), str(self.folder / "activities"), "--program", str(self.program)]
        if name.startswith("variants"):
            words = [str(self.folder / "variants.py"), name.split()[-1], str(self.program)]
        words += ["--workers", "2"] if "--parts" in words else []
        pipe, none = subprocess.PIPE, subprocess.DEVNULL
        command = subprocess.Popen(
            [sys.executable, *words], stdin=pipe, stdout=none, stderr=none, env=environment, start_new_session=True
        )  # fmt: skip
        self.addCleanup(self.end, command, name)
        assert command.stdin is not None
        command.stdin.write(b"optimum\n")
        command.stdin.flush()
        return command

    def end(self, command: "subprocess.Popen[bytes]", name: str) -> None:
        assert command.stdin is not None
        command.stdin.close()
        command.kill()
        command.wait()
        for left in self.left(name):
            os.kill(left, signal.SIGKILL)

    def left(self, name: str) -> Set[int]:
        """The processes of a run."""
        mark = f"RUN={self.runs[name]}".encode()
        found = set()
        for path in Path("/proc").glob("[0-9]*/environ"):
            try:
                if mark in path.read_bytes().split(b"\0"):
                    found.add(int(path.parent.name))
            except OSError:
                pass
        return found

    def wait_until(self, holds: Callable[[], bool], what: str) -> None:
        until = time.monotonic() + LONG
        while not holds():
            self.assertLess(time.monotonic(), until, what)
            time.sleep(0.05)

    def is_searching(self, name: str) -> bool:
        return len(list(self.folder.glob(f"{self.runs[name]}.*"))) == SEARCHING[name]

    def test_nothing_is_left(self) -> None:
        for number, status in STATUSES.items():
            commands = {name: self.started(name) for name in SEARCHING}
            for name in commands:
                self.wait_until(partial(self.is_searching, name), f"{name} does not search")
            for command in commands.values():
                command.send_signal(number)
            for name, command in commands.items():
                with self.subTest(command=name, signal=number.name):
                    self.is_ended(name, command, number, status)

    def is_ended(self, name: str, command: "subprocess.Popen[bytes]", number: signal.Signals, status: int) -> None:
        if (name, number) == ("shell", signal.SIGINT):
            self.wait_until(lambda: self.left(name) == {command.pid}, "the program searches on")
            assert command.stdin is not None
            command.stdin.close()
            status = 0
        wanted: List[int] = [status, -number] if name.startswith("variants") else [status]
        self.assertIn(command.wait(LONG), wanted)
        self.wait_until(lambda: not self.left(name), "a process is left")


if __name__ == "__main__":
    unittest.main()
