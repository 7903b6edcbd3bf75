"""A program that answers nothing, floods, or makes impossible claims: it is abandoned in time, and named."""

from __future__ import annotations

import contextlib
import io
import os
import pathlib
import resource
import signal
import subprocess
import sys
import time
import unittest
from typing import List, Tuple
from unittest import mock

from pespbench import BadReply, Bench, Ended
from pespbench.__main__ import main
from pespbench.curing import cured
from pespbench.faults import GivenUp
from tests.common import LONG, SOON, TOP, Case

NETWORK = "# period 60 lines 4\\nadd event 1\\nadd event 2\\nadd activity 1 1 2 3 9 2\\nadd activity 2 2 1 3 9 2\\n"
# Its reply to `dump`, and to later commands.
SILENT, ALIVE = "time.sleep(600)", f'write(b"{NETWORK}")'
FLOODS = 'while True:\n        os.write(2, b"pespbench: no end " * 4_000)'
ENDLESS = 'while True:\n        write(b"1 2 " * 16_000)'
PROMISES = 'write(b"# period 60 lines 9999999\\n")\n    while True:\n        write(b"add event 1\\n" * 5_000)'
COMMANDS = [["search", "--seconds", "1"], ["helps", "--seconds", "1"], ["why", "--seconds", "1"], ["report", "--search", "1", "--output", "/dev/null"]]
# Replies that no network of those events and activities has.
IMPOSSIBLE = {
    "cost": ["cost -1", "cost 12000000000000000", "cost " + "9" * 5_000, "cost 1_0", "cost \\xd9\\xa3"],
    "tensions": ["tensions 1\\n1 3 0", "tensions 2\\n1 3 0\\n7 3 0", "tensions 2\\n1 3 0\\n2 9 99", "tensions 2\\n1 3 0\\n2 5 3", "tensions 100001"],
    "domains": ["domains 20001", "domains 1\\n1: 60", "domains 1\\n1: 3 2", "domains 1\\n1: -1"],
    "domain 1": ["1: 60", "1: 3 3"],
    "optimum": ["optimum 0 1\\n1 0", "optimum 0 2\\n1 0\\n2 60", "optimum 0 2\\n1 0\\n3 0", "optimum -1 2\\n1 0\\n2 0", "optimum 0 20001"],
    "violations": ["violations 120001"],
    "dump": ["# period 60 lines 140001"],
}
DUMPS = ["hello", "add event", "add event x", "time 1 3", "add activity 1 1 2 3 9 2", "fix 1 60", "drop event 3", "add event 9999999999", "span 1 2 3"]


class Given(Case):
    """With stand-ins instead of the program."""

    def program(self, at_first: str, later: str) -> str:
        return str(self.stand_in(f'if line == "dump":\n    {at_first}\nelse:\n    {later}'))

    def told(self, words: List[str], program: str) -> Tuple[int, str, float]:
        """The status of a command line, its message, and the seconds that it took."""
        activities = self.folder / "activities"
        activities.write_text("1; 1; 2; 3; 9; 2\n2; 2; 1; 3; 9; 2\n")
        began = time.monotonic()
        with contextlib.redirect_stdout(io.StringIO()), contextlib.redirect_stderr(io.StringIO()) as told:
            with mock.patch("pespbench.patience.LEAST", 0.5), mock.patch("os.getloadavg", lambda: (0.0, 0.0, 0.0)):
                status = main([*words, str(activities), "--program", program])
        return status, told.getvalue(), time.monotonic() - began

    def test_no_answer_at_all(self) -> None:
        for first in (SILENT, FLOODS):
            program = self.program(first, SILENT)
            for words in COMMANDS:
                status, told, took = self.told(words, program)
                self.assertEqual((status, told), (1, "pespbench: the program gave no answer within 1 seconds, and was given up\n"), words)
                self.assertLess(took, SOON)

    def test_no_answer_to_a_question(self) -> None:
        """A query after the network is known does not wait longer."""
        for later in (SILENT, FLOODS):
            program = self.program(ALIVE, later)
            for words in COMMANDS:
                status, told, took = self.told(words, program)
                self.assertNotIn("Traceback", told)
                self.assertIn("gave no answer within" if words[0] in ("why", "report") else "", told)
                self.assertLess(took, SOON, (words, later))

    def test_what_has_no_end(self) -> None:
        """A line, and a reply, that is longer than any is refused before it fills memory."""
        before = resource.getrusage(resource.RUSAGE_SELF).ru_maxrss
        for first in (ENDLESS, PROMISES):
            program = self.program(first, SILENT)
            for words in COMMANDS:
                status, told, took = self.told(words, program)
                self.assertEqual((status, told[:32]), (1, "pespbench: no reply of pespbench"))
                self.assertLess(took, SOON)
        self.assertLess(resource.getrusage(resource.RUSAGE_SELF).ru_maxrss - before, 100_000)

    def test_much_is_said_of_an_end(self) -> None:
        program = self.program("os.write(2, b'x' * 60_000)\n    sys.exit(3)", SILENT)
        with self.assertRaises(Ended) as told:
            Bench.open(None, program=program)
        self.assertEqual((told.exception.status, set(told.exception.text), len(told.exception.text)), (3, {"x"}, 8_192))

    def test_a_record_of_many_digits(self) -> None:
        ended = Ended(1, f"pespbench: times file, record {'9' * 5_000}: ")
        self.assertEqual(cured(ended, {"times": self.folder / "none"}), ended)

    def test_nothing_is_left_of_it(self) -> None:
        """The processes that it has started end with it."""
        marked = self.folder / "child"
        body = f"import subprocess\n    child = subprocess.Popen(['sleep', '600'])\n    pathlib.Path({str(marked)!r}).write_text(str(child.pid))\n    {SILENT}"
        self.told(COMMANDS[0], self.program(body, SILENT))
        self.assertTrue(self.is_ended(int(marked.read_text())))

    def is_ended(self, process: int) -> bool:
        """Whether a process ends in time; one that nobody has waited for has ended too."""
        until = time.monotonic() + SOON
        while time.monotonic() < until:
            try:
                state = pathlib.Path(f"/proc/{process}/stat").read_text().rpartition(")")[2].split()[0]
            except OSError:
                return True
            if state in "ZX":
                return True
            time.sleep(0.05)
        return False

    def test_a_patience_of_its_own(self) -> None:
        with mock.patch("pespbench.patience.LEAST", 0.5), mock.patch("os.getloadavg", lambda: (0.0, 0.0, 0.0)):
            self.assertRaises(GivenUp, Bench.open, None, program=self.program(SILENT, SILENT), patience=0.1)
            with Bench.open(None, program=self.program(ALIVE, SILENT), patience=0.1) as bench:
                self.assertRaises(GivenUp, bench.cost)

    def test_what_cannot_be(self) -> None:
        for command, replies in IMPOSSIBLE.items():
            for reply in replies:
                at = f'if line == {command!r} and asked.append(1) is None and len(asked) == {2 if command == "dump" else 1}:'
                program = self.stand_in(f'{at}\n    write(b"{reply}\\n")\nelif line == "dump":\n    {ALIVE}\nelse:\n    write(b"ok\\n")')
                program.write_text(program.read_text().replace("EMPTY =", "asked = []\nEMPTY ="))
                with self.subTest(reply=reply[:40]), Bench.open(None, program=program) as bench, self.assertRaises(BadReply):
                    bench.ask(command)

    def test_networks_that_cannot_be(self) -> None:
        for line in DUMPS:
            text = f"# period 60 lines 2\\nadd event 1\\n{line}\\n"
            with self.subTest(line=line), self.assertRaises(BadReply):
                Bench.open(None, program=self.program(f'write(b"{text}")', SILENT))


ASKED = """
if line == "dump":
    write(b"# period 60 lines 3\\nadd event 1\\nadd event 2\\nadd activity 1 1 2 3 9 2\\n")
elif line.startswith(("try", "optimum")):
    pathlib.Path(__file__).with_name("searches").touch()
    time.sleep(600)
else:
    write(b"ok\\n")
"""
# Imported before all else, it sends Ctrl-C as soon as a module is searched for.
INTERRUPTS = """
import os, signal, sys

class Finder:
    def find_spec(self, name, path=None, target=None):
        if name == os.environ.get("AT") and os.environ.pop("AT"):
            os.kill(os.getpid(), signal.SIGINT)

sys.meta_path.insert(0, Finder())
"""


def end(process: "subprocess.Popen[bytes]") -> None:
    """Ends a process that still runs."""
    process.kill()
    process.wait()
    for stream in (process.stdin, process.stdout, process.stderr):
        if stream is not None:
            stream.close()


class Commands(Case):
    """Commands in processes of their own."""

    def begun(self, *words: str) -> "subprocess.Popen[bytes]":
        environment = {**os.environ, "PYTHONPATH": str(TOP / "python")}
        pipe = subprocess.PIPE
        process = subprocess.Popen([sys.executable, "-m", "pespbench", *words], stdin=pipe, stdout=pipe, stderr=pipe, env=environment)
        self.addCleanup(end, process)
        return process

    def test_the_end_of_the_input_in_a_search(self) -> None:
        program = str(self.stand_in(ASKED))
        for line in (b"optimum\n", b"search 600\n", b"fix 1 2\ntry 9\n"):
            shell = self.begun("shell", str(self.folder / "activities"), "--program", program)
            assert shell.stdin is not None
            shell.stdin.write(line)
            shell.stdin.flush()
            searches, until = self.folder / "searches", time.monotonic() + LONG
            while not searches.exists():
                self.assertLess(time.monotonic(), until)
                time.sleep(0.05)
            searches.unlink()
            time.sleep(2)
            self.assertEqual(shell.communicate(timeout=SOON)[1], b"", line)
            self.assertEqual(shell.returncode, 0, line)

    def test_a_script_has_its_answers(self) -> None:
        """A command whose input ends before its search starts waits for the result."""
        slow = ASKED.replace("time.sleep(600)", 'time.sleep(1.5)\n    write(b"infeasible\\n")')
        shell = self.begun("shell", str(self.folder / "activities"), "--program", str(self.stand_in(slow)))
        self.assertEqual(shell.communicate(b"optimum\noptimum\n", LONG), (b"infeasible\ninfeasible\n", b""))

    def test_a_long_line(self) -> None:
        shell = self.begun("shell", str(self.folder / "activities"), "--program", str(self.stand_in(ASKED)))
        told = shell.communicate(b"x" * 3_000_000 + b"\nfix 1 2\r\nfix 1 3", LONG)
        self.assertEqual(told, (b"a line has at most 4096 bytes\nok\nok\n", b""))

    def test_interrupts_while_it_begins(self) -> None:
        (self.folder / "sitecustomize.py").write_text(INTERRUPTS)
        for name in ("pespbench.answers", "pespbench.client", "pespbench.variants", "pespbench.__main__", "argparse", "pespbench.lintim", "pespbench.drawn.region"):
            environment = {**os.environ, "PYTHONPATH": f"{self.folder}:{TOP / 'python'}", "AT": name}
            done = subprocess.run([sys.executable, "-m", "pespbench", "--help"], env=environment, capture_output=True, timeout=LONG)
            with self.subTest(module=name):
                self.assertEqual((done.returncode, done.stderr), (128 + signal.SIGINT, b""))


if __name__ == "__main__":
    unittest.main()
