"""The subcommand `mend` and that of the shell."""

from __future__ import annotations

import contextlib
import io
import json
import signal
import unittest
from unittest import mock

from pespbench import Bench
from pespbench.__main__ import main
from pespbench.mending import mended
from tests.common import EXAMPLES, PROGRAM, Case, run_words
from tests.test_command_line import TWO, called

LINE = [str(EXAMPLES / "hourly-line/activities"), "--times", str(EXAMPLES / "hourly-line/times"), "--program", PROGRAM]


class Words(Case):
    """Command lines with their output."""

    def test_text(self) -> None:
        """An edit, and what moves."""
        status, told = run_words("mend", *LINE, "-c", "span 11 24 24")
        wanted = "4 events move, by at most 2 minutes, 5 minutes in all. The timetable costs 436.\n\n"
        self.assertEqual((status, told.split("\n\n")[0] + "\n\n"), (0, wanted))
        self.assertIn("  1 minute earlier  event 2  from :28 to :27\n", told)
        status, told = run_words("mend", *LINE, "--hold", "1", "--hold", "2=28")
        self.assertEqual((status, told.splitlines()[0]), (0, "3 events move, by at most 2 minutes, 5 minutes in all. The timetable costs 458."))
        words = [*TWO, "--times", str(EXAMPLES / "two-trains/times"), "--program", PROGRAM, "-c", "time 2 4"]
        self.assertEqual(run_words("mend", *words), (0, "Nothing has to move. The timetable costs 4.\n"))

    def test_none(self) -> None:
        held = ["--hold", "1=3", "--hold", "2=40"]
        self.assertEqual(run_words("mend", *LINE, *held), (1, "No timetable meets everything.\n"))
        told = "No timetable meets everything with moves of at most 0 minutes.\n"
        self.assertEqual(run_words("mend", *LINE, "--hold", "1=9", "--most", "0"), (1, told))
        self.assertEqual(run_words("mend", *LINE, "--hold", "1=9", "--seconds", "0"), (1, "None was found in time.\n"))

    def test_data(self) -> None:
        """As JSON and as CSV, and saved for the next command."""
        folder = str(self.folder / "saved")
        status, told = run_words("mend", *LINE, "-c", "fix 1 4", "--json", "--save", folder)
        answer = json.loads(told)
        self.assertEqual((status, answer["answer"], answer["found"], answer["proved"], answer["least"]), (0, "mend", True, True, True))
        moves = [row["move"] for row in answer["rows"]]
        self.assertEqual((max(abs(move) for move in moves), sum(abs(move) for move in moves)), (answer["most"], answer["minutes"]))
        with Bench.load(folder, program=PROGRAM) as bench:
            self.assertEqual((len(bench.violations()), bench.cost(), bench.times[1]), (0, answer["cost"], 4))
            self.assertEqual({row["event"]: row["time"] for row in answer["rows"]}.items() - bench.times.items(), set())
        status, told = run_words("mend", *LINE, "-c", "fix 1 4", "--csv")
        self.assertEqual((status, told.splitlines()[0]), (0, "answer,found,proved,most,least,minutes,lower_bound,cost,event,name,time,move"))

    def test_wrong_words(self) -> None:
        for words, told, status in [(["-c", "cost"], "no edit: cost", 2), (["-c", "fix 99 0"], "refused 2", 1), (["-c", "fix 1"], "fault", 1),
                                    (["--hold", "99=1"], "there is no event 99", 2), (["--hold", "1=60"], "from 0 to 59", 2)]:  # fmt: skip
            with contextlib.redirect_stderr(io.StringIO()) as error:
                self.assertEqual(main(["mend", *LINE, *words]), status)
            self.assertIn(told, error.getvalue())
        untimed = [LINE[0], "--program", PROGRAM, "--hold", "1"]
        with contextlib.redirect_stderr(io.StringIO()) as error:
            self.assertEqual(main(["mend", *untimed]), 2)
        self.assertIn("event 1 has no time to be held at; name it, as 1=7", error.getvalue())
        for option in ("--hold=x", "--hold=1=", "--most=-1", "--seconds=-1"):
            with contextlib.redirect_stderr(io.StringIO()), self.assertRaises(SystemExit):
                main(["mend", *LINE, option])

    def test_interrupted(self) -> None:
        """The result so far is printed and saved, and the status is that of Ctrl-C."""
        folder = self.folder / "saved"

        def interrupted(*given: object, **words: object) -> None:
            mended(*given, **words)  # type: ignore[arg-type]
            signal.raise_signal(signal.SIGINT)

        with mock.patch("pespbench.mend.mended", interrupted):
            status, told = run_words("mend", *LINE, "-c", "fix 1 4", "--save", str(folder))
        self.assertEqual((status, "The timetable costs" in told, (folder / "times").exists()), (130, True, True))

    def test_in_the_shell(self) -> None:
        """Proposed, and taken like the result of a search."""
        given = "mend 5\ntake\ntime 1 9\ntime 2 9\nmend 20\ntake\nviolations\nmend x\n"
        none = "no search of this shell has found a timetable\n"
        status, told, error = called("shell", *TWO, given=f"take\n{given}")
        self.assertEqual((status, error, told.startswith(none)), (0, "", True))
        self.assertIn("2 events move, by at most 2 minutes, 4 minutes in all.", told)
        self.assertTrue(told.endswith("ok\nviolations 0\na search takes from 0 to 1,000,000 seconds, and not 'x'\n"), told)


if __name__ == "__main__":
    unittest.main()
