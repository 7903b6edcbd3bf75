"""The subcommands `shell` and `search`, and the common parts of all."""

from __future__ import annotations

import os
import pty
import select
import signal
import subprocess
import sys
import unittest
from pathlib import Path
from typing import List, Tuple

from pespbench.commands import CHANGES
from pespbench.replies import BEGINNINGS
from pespbench.shell import OWN
from tests.common import EXAMPLES, LONG, PROGRAM, TOP, Case, drawn_script, wait_for_work, worked

TWO = ["--period", "10", str(EXAMPLES / "two-trains/activities")]
ENVIRONMENT = {**os.environ, "PESPBENCH": PROGRAM, "PYTHONPATH": str(TOP / "python")}


def called(*words: str, given: str = "") -> Tuple[int, str, str]:
    """The exit status of a subcommand, and its standard output and standard error."""
    command = [sys.executable, "-m", "pespbench", *words]
    done = subprocess.run(command, input=given, capture_output=True, text=True, env=ENVIRONMENT, timeout=LONG)
    return done.returncode, done.stdout, done.stderr


class Shell(Case):
    """`shell`."""

    def test_replies_are_the_programs(self) -> None:
        """Each line is answered like by the program, byte for byte."""
        lines = "fix 1 0\ndomains\ndomain 2\nfix 9 0\ncost\ncosts\noptimum\nadopt\ncost\ntensions\nviolations\ntry 3\ndump\n"
        lines += "# a comment\n\nwindow 2 3 4\nspan 1 3 3\noptimum\ntime 2 9\nviolations\nadd event 7\nunfix 7\nuntime 7\n"
        wanted = subprocess.run([PROGRAM, *TWO], input=lines, capture_output=True, text=True).stdout
        self.assertEqual(called("shell", *TWO, given=lines), (0, wanted, ""))

    def test_own_words(self) -> None:
        folder = str(self.folder / "saved")
        lines = f"fix 1 0\nundo\nundo\nfix 1 3\nadopt\ntimes\nsearch 5\nsearch x\nsave\nsave {folder}\nhelp\nquit\ncost\n"
        status, output, error = called("shell", *TWO, given=lines)
        wanted = "ok\n# taken back: fix 1 0\nthere is nothing to take back\nok\nok\n1 3  event 1\n2 7  event 2\noptimum 4 2\n1 3\n2 7\n"
        wanted += f"a search takes from 0 to 1,000,000 seconds, and not 'x'\nsave wants a folder\n# saved: {folder}\n"
        self.assertTrue(output.startswith(wanted), output)
        self.assertIn("Ctrl-C", output)
        self.assertEqual((status, error), (0, ""))
        self.assertEqual(called("shell", folder, given="cost\n"), (0, "cost 4\n", ""))

    def test_taken_and_made_again(self) -> None:
        """The result of a search is taken, and an undone change is redone, until something else is changed."""
        lines = "redo\ntake\nsearch 5\ntake\ncost\nspan 1 3 4\nundo\nundo\ntimes\nredo\nredo\nredo\ncost\nundo\nfix 1 0\nredo\n"
        none = "there is nothing to make again\n"
        wanted = f"{none}no search of this shell has found a timetable\noptimum 4 2\n1 0\n2 4\nok\ncost 4\nok\n"
        times = ["time 1 0", "time 2 4"]
        wanted += "# taken back: span 1 3 4\n" + "".join(f"# taken back: {line}\n" for line in times)
        wanted += "".join(f"# made again: {line}\n" for line in times) + f"# made again: span 1 3 4\n{none}cost 4\n"
        wanted += f"# taken back: span 1 3 4\nok\n{none}"
        self.assertEqual(called("shell", *TWO, given=lines), (0, wanted, ""))

    def test_why_and_helps(self) -> None:
        """They answer like the subcommands, and change nothing."""
        words = ["shell", str(EXAMPLES / "two-changes")]
        told = called(*words, given="why\nundo\nspan 42 6 10\nhelps 100\nwhy\nhelps x\n")[1]
        self.assertTrue(told.startswith("These 6 cannot be met together:\n"), told)
        for text in ("anywhere on it that is not hard, such as turn at Dale", "\nthere is nothing to take back\nok\nThe best timetable as it is costs 300.\n"):
            self.assertIn(text, told)
        self.assertIn("\n3 of 3 activities were asked about, each with 1 minute more.\n", told)
        self.assertTrue(told.endswith("so there is no conflict.\na search takes from 0 to 1,000,000 seconds, and not 'x'\n"), told)

    def test_words_that_end_it(self) -> None:
        for word in ("quit", "exit", " exit "):
            self.assertEqual(called("shell", *TWO, given=f"dump\n{word}\ncost\n")[:2], (0, called("shell", *TWO, given="dump\n")[1]))

    def test_help_tells_each_command(self) -> None:
        told = called("shell", *TWO, given="help\n")[1]
        for word in [*CHANGES, *BEGINNINGS, *OWN, "quit", "exit", "Ctrl-D"]:
            self.assertRegex(told, rf"(?m)[ ,]{word}\b")
        self.assertLessEqual(max(map(len, told.splitlines())), 100)

    def test_completed_at_a_terminal(self) -> None:
        """Tab completes a word and the number of an event."""
        leader, follower = pty.openpty()
        command = [sys.executable, "-m", "pespbench", "shell", *TWO]
        environment = {**ENVIRONMENT, "TERM": "dumb", "INPUTRC": "/dev/null"}
        process = subprocess.Popen(command, stdin=follower, stdout=follower, stderr=follower, env=environment, start_new_session=True)
        os.close(follower)
        try:
            self.read_to(leader, "> ")
            os.write(leader, b"add event 77\n")
            self.read_to(leader, "ok")
            os.write(leader, b"wind\t 7\t 3 1\ndom\t 7\t\nquit\n")
            self.read_to(leader, "77: 3")
            self.assertEqual(process.wait(LONG), 0)
        finally:
            process.kill()
            process.wait()
            os.close(leader)

    def test_stopped_in_a_sentence(self) -> None:
        """The reply is the program's, with an explanation for a planner."""
        told = "A timetable that meets everything costs 3; whether there is a better one is undecided."
        none = "Whether a timetable meets everything is undecided."
        fixed = self.folder / "times"
        fixed.write_text("1; 0\n2; 3\n")
        activities = self.folder / "activities"
        activities.write_text("1; 1; 2; 0; 9; 1\n")
        words = ["--period", "10", str(activities)]
        self.assertEqual(called("search", *words, "--times", str(fixed), "--seconds", "0"), (0, "stopped 3 2\n1 0\n2 3\n", f"{told}\n"))
        self.assertEqual(called("search", *words, "--seconds", "0"), (1, "stopped none\n", f"{none}\n"))
        given = "search 0\ntime 1 0\ntime 2 3\nsearch 0\n"
        wanted = f"stopped none\n# {none}\nok\nok\nstopped 3 2\n1 0\n2 3\n# {told}\n"
        self.assertEqual(called("shell", *words, given=given), (0, wanted, ""))

    def test_control_c_at_a_terminal(self) -> None:
        """Ctrl-C in a long search: the typed edits remain, and the next line is answered."""
        script = "\n".join([*drawn_script(11, 100, 320), *(f"span {each} {each % 60} {each % 60 + 45}" for each in range(320))])
        activities = [line.split()[2:] for line in script.splitlines() if line.startswith("add activity")]
        path = self.folder / "activities"
        path.write_text("".join("; ".join([*row[:3], str(int(row[0]) % 60), str(int(row[0]) % 60 + 45), row[5]]) + "\n" for row in activities))
        leader, follower = pty.openpty()
        command = [sys.executable, "-m", "pespbench", "shell", str(path)]
        process = subprocess.Popen(command, stdin=follower, stdout=follower, stderr=follower, env=ENVIRONMENT, start_new_session=True)
        os.close(follower)
        try:
            self.read_to(leader, "> ")
            os.write(leader, b"fix 3 7\n")
            self.read_to(leader, "ok")
            before = worked(process.pid)
            os.write(leader, b"optimum\n")
            wait_for_work(process.pid, before)
            os.kill(process.pid, signal.SIGINT)
            self.read_to(leader, "nothing that was accepted is lost")
            os.write(leader, b"domain 3\n")
            self.read_to(leader, "3: 7")
            os.write(leader, b"quit\n")
            self.assertEqual(process.wait(LONG), 0)
        finally:
            process.kill()
            process.wait()
            os.close(leader)

    def read_to(self, leader: int, text: str) -> None:
        held = b""
        while text.encode() not in held:
            self.assertTrue(select.select([leader], [], [], LONG)[0], held)
            held += os.read(leader, 1_000)


class Searching(Case):
    """`search`."""

    def test_found_and_saved(self) -> None:
        variants: List[List[str]] = [[], ["--parts", "--workers", "2"]]
        for more in variants:
            folder = str(self.folder / "-".join(["saved", *more]))
            came = called("search", *TWO, "--save", folder, *more)
            self.assertEqual(came, (0, "optimum 4 2\n1 0\n2 4\n", ""))
            self.assertEqual((Path(folder) / "times").read_text(), "event; time\n1; 0\n2; 4\n")

    def test_by_stations(self) -> None:
        """If events have stations, the timetable is printed by them, also at a prompt; other forms are for programs."""
        labels = self.folder / "labels"
        labels.write_text("event; line; to; station; kind\n1; M; Dale; Benton; departure\n2; M; Dale; Ashford; pass\n")
        words, given = [*TWO, "--labels", str(labels)], "search 9\nadd event 3\ntime 1 0\ntime 2 4\ntime 3 9\nsearch 0\n"
        boards = "\nAshford\n  :04  M to Dale pass\n\nBenton\n  :00  M to Dale leaves\n"
        best = f"The best timetable costs 4.\n{boards}"
        self.assertEqual(called("search", *words), (0, best, ""))
        self.assertEqual(called("search", *words, "--csv"), called("search", *TWO, "--csv"))
        told = f"A timetable that meets everything costs 4; whether there is a better one is undecided.\n{boards}\nat no station\n  :09  event 3\n"
        self.assertEqual(called("shell", *words, given=given), (0, best + 4 * "ok\n" + told, ""))

    def test_nothing_found(self) -> None:
        tight = self.folder / "activities"
        tight.write_text("1; 1; 2; 3; 3; 1\n2; 2; 1; 3; 3; 1\n")
        self.assertEqual(called("search", "--period", "10", str(tight)), (1, "infeasible\n", ""))
        self.assertEqual(called("search", str(tight), "--seconds", "0")[:2], (1, "stopped none\n"))


class Faults(Case):
    """The output on standard error."""

    def test_told(self) -> None:
        table: List[Tuple[List[str], int, str]] = [
            (["search", "none"], 1, "pespbench: activities file none cannot be read. There is no such file.\n"),
            (["search", str(self.folder)], 1, f"pespbench: there is no file {self.folder}/period\n"),
            (["search", *TWO, "--program", "none"], 1, "pespbench: there is no program none;"),
            (["search", *TWO, "--labels", str(self.folder)], 1, f"pespbench: {self.folder} is a folder, and no file\n"),
            (["search", *TWO, "--labels", f"{TWO[-1]}/x"], 1, f"pespbench: {TWO[-1]}/x is below what is no folder\n"),
            (["report", *TWO, "--output", str(self.folder)], 1, f"pespbench: {self.folder} is a folder, and no file\n"),
            (["report", *TWO, "--output", f"{self.folder}/none/x"], 1, f"pespbench: {self.folder}/none/x is below what is no folder\n"),
            (["report", *TWO, "--output", 300 * "x"], 1, f"pespbench: {300 * 'x'} is too long a name\n"),
            ([], 2, "usage:"),
            (["searches"], 2, "usage:"),
        ]
        for words, status, text in table:
            came = called(*words)
            self.assertEqual((came[0], came[1]), (status, ""))
            self.assertTrue(came[2].startswith(text), came[2])
        self.assertEqual(called("--help")[0], 0)

    def test_help_of_each(self) -> None:
        """It begins with the purpose of the subcommand."""
        for name in ("why", "draw", "to-lintim"):
            with self.subTest(name=name):
                self.assertRegex(called(name, "--help")[1], r"\n\n[A-Z][^\n]+[.]\n\npositional arguments:")


if __name__ == "__main__":
    unittest.main()
