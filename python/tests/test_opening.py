"""The options of a network: each is accepted beside a folder too, or refused by name."""

from __future__ import annotations

import contextlib
import io
import unittest
from unittest import mock

from pespbench.__main__ import main
from tests.common import PROGRAM, Case

LABELS = "event; line; to; station; kind\n1; M; Cranley; {}; departure\n2; M; Cranley; Benton; arrival\nactivity; kind\n1; run\n"


class Folder(Case):
    """A test with a folder that has all its files."""

    def setUp(self) -> None:
        super().setUp()
        self.network = self.folder / "network"
        self.network.mkdir()
        own = {"period": "60\n", "activities": "1; 1; 2; 3; 9; 2\n", "fixed": "1; 5\n", "times": "1; 5\n2; 9\n3; 1\n"}
        own.update({"windows": "2; 7; 9\n", "events": "3\n", "labels": LABELS.format("Ashford")})
        for name, text in own.items():
            (self.network / name).write_text(text)

    def file(self, name: str, text: str) -> str:
        path = self.folder / name
        path.write_text(text)
        return str(path)

    def typed(self, *words: str, status: int = 0, given: str = "") -> str:
        """The output of a command line that ends with a status, on either stream."""
        stdin = io.StringIO(given)
        with contextlib.redirect_stdout(io.StringIO()) as told, contextlib.redirect_stderr(told):
            with mock.patch("sys.stdin", stdin):
                self.assertEqual(main([*words, "--program", PROGRAM]), status)
        return told.getvalue()

    def shell(self, given: str, *options: str) -> str:
        return self.typed("shell", str(self.network), *options, given=given)


class Beside(Folder):
    """Options beside a folder."""

    def test_nothing_given(self) -> None:
        self.assertIn("# period 60 lines 6\n", self.shell("dump\n"))
        self.assertEqual(self.shell("times\n"), "1 5  M to Cranley leaves Ashford\n2 9  M to Cranley arrives at Benton\n3 1  event 3\n")

    def test_period(self) -> None:
        self.assertIn("# period 30 lines 6\n", self.shell("dump\n", "--period", "30"))
        (self.network / "period").unlink()
        self.assertIn("# period 30 lines 6\n", self.shell("dump\n", "--period", "30"))
        self.assertIn("refused 4 time 7 is out of range", self.typed("shell", str(self.network), "--period", "7", status=1))

    def test_times(self) -> None:
        """They are those of all events: an omitted one has no time, even if the folder has one."""
        times = self.file("times", "1; 2\n3; 61\n")
        self.assertEqual(self.shell("times\n", "--times", times), "1 2  M to Cranley leaves Ashford\n3 1  event 3\n")

    def test_fixed(self) -> None:
        """It replaces the folder's own file; the others are the folder's."""
        told = self.shell("dump\n", "--fixed", self.file("fixed", "1; 8\n"))
        self.assertIn("fix 1 8\nwindow 2 7 9\n", told)
        told = self.shell("dump\n", "--fixed", self.file("fixed", "2; 8\n"))
        self.assertIn("add event 3\nfix 2 8\nadd activity", told)

    def test_labels(self) -> None:
        labels = self.file("labels", LABELS.format("Everly"))
        self.assertIn("leaves Everly", self.shell("times\n", "--labels", labels))
        told = self.typed("report", str(self.network), "--labels", labels, "--output", "-")
        self.assertIn("Everly", told)

    def test_missing(self) -> None:
        for name in ("fixed", "times", "labels"):
            missing = str(self.folder / "missing")
            self.assertTrue(self.typed("shell", str(self.network), f"--{name}", missing, status=1).startswith("pespbench: "))

    def test_compared(self) -> None:
        """The period and the labels are those of both, unless the other has its own."""
        labels, times = self.file("labels", LABELS.format("Everly")), self.file("times", "1; 6\n2; 9\n3; 1\n")
        both = ["compare", str(self.network), str(self.network), "--other-times", times]
        self.assertIn("M to Cranley leaves Ashford: :05 to :06 (+1 minute)", self.typed(*both))
        self.assertIn("M to Cranley leaves Everly: :05 to :06 (+1 minute)", self.typed(*both, "--labels", labels))
        self.assertIn("M to Cranley leaves Everly: :05 to :06 (+1 minute)", self.typed(*both, "--other-labels", labels))
        self.assertNotIn("period", self.typed(*both, "--period", "30"))
        self.assertIn("period 40, was 30", self.typed(*both, "--period", "30", "--other-period", "40"))


class Hard(Folder):
    """Kinds that must not change."""

    def test_unknown_kinds(self) -> None:
        told = self.typed("why", str(self.network), "--hard", "run, dwel,hedway", status=2)
        self.assertEqual(told, "pespbench: no kind to be held hard: dwel, hedway; there are run, fixed\n")

    def test_known_kinds(self) -> None:
        for kinds in ("run", "run, fixed", "fixed", "", " "):
            self.assertEqual(self.typed("why", str(self.network), "--hard", kinds, "--times", self.file("t", "")).count("Undecided"), 0)


if __name__ == "__main__":
    unittest.main()
