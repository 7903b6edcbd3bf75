"""The results that a search keeps: never a dearer timetable than the working one, and the best found before its end."""

from __future__ import annotations

import contextlib
import io
import os
import pty
import signal
import subprocess
import sys
import time
import unittest
from pathlib import Path
from typing import List, Tuple

from pespbench import Bench, Stopped, optimum_in_parts
from pespbench.__main__ import main
from pespbench.parts import Search, parts_of
from pespbench.variants import Base
from pespbench.watching import Watch
from pespbench.why import Possible, why
from pespbench.workers import Bar
from tests.common import EXAMPLES, LONG, PROGRAM, TOP, Case
from tests.test_command_line import TWO, called

# Two events and an activity of 3 to 30 minutes; the first search finds a timetable that costs 20, others do not end.
FINDS_ONE = r"""
known = answer.__dict__.setdefault("times", {})
for word in sys.argv if not known else []:
    if word.startswith("--times="):
        rows = [row.split(";") for row in pathlib.Path(word[8:]).read_text().splitlines()[1:]]
        known.update({int(event): int(minute) for event, minute in rows})
words = line.split()
if line == "dump":
    write(b"# period 60 lines 3\nadd event 1\nadd event 2\nadd activity 1 1 2 3 30 1\n")
elif words[0] == "time":
    known[int(words[1])] = int(words[2])
    write(b"ok\n")
elif words[0] == "violations":
    write(b"violations 0\n" if (known[2] - known[1] - 3) % 60 <= 27 else b"violations 1\nactivity 1\n")
elif words[0] == "cost":
    write(b"cost %d\n" % ((known[2] - known[1] - 3) % 60))
elif line == "try 1000":
    write(b"stopped 20 2\n1 0\n2 23\n")
elif words[0] in ("try", "optimum"):
    pathlib.Path(__file__).with_name("searching").touch()
    time.sleep(600)
elif words[0] in ("domain", "domains"):
    write(b"1: 0\n" if words[0] == "domain" else b"domains 0\n")
else:
    write(b"ok\n")
"""
FOUND = "stopped 20 2\n1 0\n2 23\n"
ROWS = "event; time\n1; 0\n2; {}\n"


class Folders(Case):
    """A test with a program that finds one timetable, and a folder in which `search` saves."""

    def setUp(self) -> None:
        super().setUp()
        self.program = str(self.stand_in(FINDS_ONE))
        self.saved = self.network("saved")

    def network(self, name: str, second: int | None = None) -> Path:
        """A folder with a network, and with a timetable that has the second event at a minute."""
        folder = self.folder / name
        folder.mkdir()
        (folder / "period").write_text("60\n")
        (folder / "activities").write_text("1; 1; 2; 3; 30; 1\n")
        if second is not None:
            (folder / "times").write_text(ROWS.format(second))
        return folder

    def searched(self, network: Path, *more: str) -> Tuple[int, str, str]:
        return called("search", str(network), "--program", self.program, "--seconds", "1.5", "--save", str(self.saved), *more)

    def times(self) -> str:
        return (self.saved / "times").read_text()

    def started(self, *words: str, given: bytes = b"") -> "subprocess.Popen[bytes]":
        """A command that searches endlessly."""
        (self.folder / "searching").unlink(missing_ok=True)
        environment, pipe = {**os.environ, "PYTHONPATH": str(TOP / "python")}, subprocess.PIPE
        called = [sys.executable, "-m", "pespbench", *words]
        command = subprocess.Popen(called, stdin=pipe, stdout=pipe, stderr=pipe, env=environment)
        self.addCleanup(command.kill)
        assert command.stdin is not None
        command.stdin.write(given)
        command.stdin.flush()
        until = time.monotonic() + LONG
        while not (self.folder / "searching").exists():
            self.assertLess(time.monotonic(), until, "it does not search")
            time.sleep(0.02)
        return command


class Kept(Folders):
    """`search` and the contents of the folder afterwards."""

    def test_a_dearer_one_is_not_saved(self) -> None:
        """The network's own timetable costs 5, the one that the search finds 20."""
        (self.saved / "times").write_text(ROWS.format(8))
        status, output, error = self.searched(self.saved)
        self.assertEqual((status, output, self.times()), (0, "stopped 5 2\n1 0\n2 8\n", ROWS.format(8)))
        self.assertIn("A timetable that meets everything costs 5; whether there is a better one is undecided.", error)

    def test_nor_over_that_of_another_folder(self) -> None:
        (self.saved / "times").write_text(ROWS.format(8))
        self.assertEqual(self.searched(self.network("other"))[1], "stopped 5 2\n1 0\n2 8\n")
        self.assertEqual(self.searched(self.network("dearer", 33))[1], "stopped 5 2\n1 0\n2 8\n")
        self.assertEqual(self.times(), ROWS.format(8))
        self.assertEqual(self.searched(self.network("cheaper", 4))[1], "stopped 1 2\n1 0\n2 4\n")
        self.assertEqual(self.times(), ROWS.format(4))

    def test_a_cheaper_one_is_saved(self) -> None:
        """With one that costs 27, with one that does not meet everything, and with none."""
        for second in (30, 34, None):
            (self.saved / "times").write_text(ROWS.format(second) if second else "event; time\n")
            self.assertEqual(self.searched(self.saved)[:2], (0, FOUND))
            self.assertEqual(self.times(), ROWS.format(23))

    def test_interrupted(self) -> None:
        """The result until Ctrl-C, SIGTERM or SIGHUP is printed and saved."""
        for number in (signal.SIGINT, signal.SIGTERM, signal.SIGHUP):
            (self.saved / "times").unlink(missing_ok=True)
            words = ["search", str(self.saved), "--program", self.program, "--save", str(self.saved)]
            command = self.started(*words)
            command.send_signal(number)
            output, _ = command.communicate(timeout=LONG)
            self.assertEqual((command.returncode, output.decode(), self.times()), (128 + number, FOUND, ROWS.format(23)))

    def test_parts_interrupted(self) -> None:
        """In parts, too, the old timetable is kept, and the folder is unchanged."""
        (self.saved / "times").write_text(ROWS.format(8))
        words = ["search", str(self.saved), "--program", self.program, "--save", str(self.saved), "--parts", "--workers", "1"]
        command = self.started(*words)
        command.send_signal(signal.SIGINT)
        output, _ = command.communicate(timeout=LONG)
        self.assertEqual((command.returncode, output.decode()), (130, "stopped 5 2\n1 0\n2 8\n"))
        self.assertEqual(self.times(), ROWS.format(8))

    def test_the_program_dies(self) -> None:
        """The result is saved, and then the reason of the end is reported."""
        dying = FINDS_ONE.replace("time.sleep(600)", "sys.exit(3)")
        self.program = str(self.stand_in(dying))
        status, output, error = self.searched(self.saved)
        self.assertEqual((status, output, self.times()), (1, FOUND, ROWS.format(23)))
        self.assertIn("pespbench: the program ended with status 3", error)

    def test_interrupted_in_the_shell(self) -> None:
        command = self.started("shell", str(self.saved), "--program", self.program, given=b"search 60\n")
        command.send_signal(signal.SIGINT)
        output, _ = command.communicate(timeout=LONG)
        self.assertTrue(output.decode().startswith(f"{FOUND}# A timetable that meets everything costs 20; "), output)


class Standing(Case):
    """The working timetable is checked first."""

    def test_why(self) -> None:
        """A network whose timetable meets everything is not undecided, whatever searches return."""
        nothing = FINDS_ONE.replace('line == "try 1000"', 'words[0] == "try"').replace(r"stopped 20 2\n1 0\n2 23\n", r"stopped none\n")
        times = self.folder / "times"
        times.write_text(ROWS.format(8))
        with Bench.open(EXAMPLES / "two-trains/activities", times=times, program=self.stand_in(nothing)) as bench:
            self.assertEqual(why(bench, seconds=0.1), Possible({1: 0, 2: 8}))
            self.assertEqual(bench.search(0.1).found(), Stopped(5, {1: 0, 2: 8}))

    def test_standing(self) -> None:
        bench = self.two_trains()
        self.assertEqual(bench.standing(), Stopped())
        for times, wanted in [({1: 0}, Stopped()), ({1: 0, 2: 3}, Stopped()), ({1: 0, 2: 5}, Stopped(5, {1: 0, 2: 5}))]:
            bench.set_times(times)
            self.assertEqual((bench.standing(), bench.times), (wanted, times))

    def test_parts_begin_with_it(self) -> None:
        """A part that costs more than the working timetable is not searched, and the answer is the same."""
        bench = self.two_trains()
        parts = parts_of(bench.network, 2, 3)
        watch = Watch()
        search = Search(parts, Base.of(bench), Bar(len(parts), False), watch)
        self.assertEqual(len(list(search.tasks())), 9)
        search.begin(Stopped(3, {1: 0, 2: 4}))
        self.assertEqual([part.constant for part in parts][:5], [0, 1, 2, 2, 3])
        self.assertEqual((len(list(search.tasks())), watch.best.cost, watch.bound), (5, 3, 0))
        bench.set_times({1: 0, 2: 5})
        self.assertEqual(optimum_in_parts(bench, workers=1, progress=False), bench.optimum())


class Refusals(Case):
    """Invalid times of searches, and numbers of workers."""

    TIMES = ["inf", "1e10", "nan", "-1", "x", "1e400"]

    def test_in_the_shell(self) -> None:
        """Each is refused in a line, and the shell continues."""
        lines = "".join(f"search {each}\n" for each in [*self.TIMES, ""])
        status, output, error = called("shell", *TWO, given=f"{lines}cost\n")
        wanted = "".join(f"a search takes from 0 to 1,000,000 seconds, and not '{each}'\n" for each in [*self.TIMES, ""])
        self.assertEqual((status, output, error), (0, f"{wanted}refused 11 event 1 has no time\n", ""))

    def test_no_answer_ends_the_shell(self) -> None:
        """Whatever an answer raises, the next line is answered."""
        unwritable = str(self.folder / "file" / "folder")
        (self.folder / "file").write_text("")
        lines = f"fix 1 \udcff\nsave {unwritable}\ntimes x\nundo\nsave \0\nquit\n"
        given = lines.encode("utf-8", "surrogateescape")
        words, environment = [sys.executable, "-m", "pespbench", "shell", *TWO], {**os.environ, "PYTHONPATH": str(TOP / "python")}
        done = subprocess.run([*words, "--program", PROGRAM], input=given, capture_output=True, env=environment, timeout=LONG)
        self.assertEqual((done.returncode, done.stderr, len(done.stdout.splitlines())), (0, b"", 4), done.stdout)

    def test_on_command_lines(self) -> None:
        lists: List[List[str]] = [["search", "--seconds"], ["why", "--seconds"], ["report", "--search"]]
        for subcommand, option in lists:
            for each in self.TIMES:
                told = self.refused(subcommand, f"{option}={each}")
                self.assertIn(f"a search takes from 0 to 1,000,000 seconds, and not '{each}'", told)
        for option in ("--workers", "--spans", "--ranges"):
            self.assertIn("it is a whole number above 0, and not '-1'", self.refused("search", "--parts", f"{option}=-1"))

    def refused(self, subcommand: str, *options: str) -> str:
        """The messages on wrong arguments."""
        with contextlib.redirect_stderr(io.StringIO()) as error, self.assertRaises(SystemExit) as ended:
            main([subcommand, *TWO, *options])
        self.assertEqual(ended.exception.code, 2)
        return error.getvalue()

    def test_in_the_package(self) -> None:
        bench = self.two_trains()
        for seconds in (float("inf"), float("nan"), 1e10, -1.0):
            self.assertRaises(ValueError, bench.search, seconds)
        self.assertRaises(ValueError, optimum_in_parts, bench, workers=-1)


class Shown(Folders):
    """The line with the progress of a search."""

    def test_at_a_terminal_and_on_a_pipe(self) -> None:
        words = ["search", str(self.saved), "--program", self.program, "--seconds", "1.5"]
        self.assertNotIn("\r", called(*words)[2])
        leader, follower = pty.openpty()
        self.addCleanup(os.close, leader)
        environment = {**os.environ, "PYTHONPATH": str(TOP / "python")}
        done = subprocess.run(
            [sys.executable, "-m", "pespbench", *words], stdout=subprocess.PIPE, stderr=follower, env=environment, timeout=LONG
        )  # fmt: skip
        os.close(follower)
        shown = os.read(leader, 10_000).decode()
        self.assertEqual(done.stdout.decode(), FOUND)
        self.assertRegex(shown, r"^\r0 s, no timetable yet *(\r\d s, no timetable yet *)*(\r\d s, best cost 20 *)+\r\n")


if __name__ == "__main__":
    unittest.main()
