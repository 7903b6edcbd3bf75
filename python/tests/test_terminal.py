"""Names of strangers: characters that a terminal would obey are escaped, in every command, including faults."""

from __future__ import annotations

import contextlib
import io
import json
import os
import unicodedata
import unittest
from pathlib import Path
from typing import List, Tuple
from unittest import mock

from pespbench import EventLabel, Labels
from pespbench.__main__ import main
from pespbench.terminal import LAYOUT, shown, write
from tests.common import PROGRAM, Case

# Clears the screen, rings, turns red by a control of one byte, changes the direction, ends the line, goes to its start.
STEERING = "\x1b[2J\x07\x9b31m\u202e\u2066\x7f\n\t\r\u2028"
WRITTEN = "\\x1b[2J\\x07\\x9b31m\\u202e\\u2066\\x7f\\x0a\\x09\\x0d\\u2028"
DYING = """
if line == "dump":
    write(EMPTY)
elif line == "cost":
    write(b"fault \\x1b[2J\\n")
else:
    print("pespbench: no more \\x1b[2J", file=sys.stderr)
    sys.exit(3)
"""


class Names(Case):
    """Over a network whose labels, kinds and files all have such names."""

    def setUp(self) -> None:
        super().setUp()
        self.network = self.folder / f"net\x1b]0;x\x07\n{'x' * 9}\u202e"
        self.network.mkdir()
        (self.network / "period").write_text("60\n")
        (self.network / "activities").write_text("1; 1; 2; 3; 9; 2\n2; 1; 2; 20; 30; 1\n")
        event = EventLabel(f"M{STEERING}", f"C{STEERING}", f"A{STEERING}", "departure")
        other = EventLabel(f"M{STEERING}", f"C{STEERING}", f"B{STEERING}", f"k{STEERING}")
        labels = Labels({1: event, 2: other}, {1: f"run{STEERING}", 2: f"wait{STEERING}"})
        labels.write(self.network / "labels")
        self.times = self.folder / "times"
        self.times.write_text("1; 5\n2; 9\n")

    def typed(self, *words: str, given: str = "", program: str = PROGRAM) -> Tuple[int, str]:
        """The status of a command line and its output, on either stream."""
        with contextlib.redirect_stdout(io.StringIO()) as told, contextlib.redirect_stderr(told):
            with mock.patch("sys.stdin", io.StringIO(given)):
                try:
                    status = main([*words, "--program", program])
                except SystemExit as ended:
                    status = int(ended.code or 0)
        return status, told.getvalue()

    def is_shown(self, text: str, *wanted: str) -> None:
        """A text steers nothing, and contains the expected words."""
        steering = {letter for letter in text if unicodedata.category(letter) in ("Cc", "Cf", "Zl", "Zp", "Cs")} - {"\n"}
        self.assertEqual(steering, set(), text)
        for each in wanted:
            self.assertIn(each, text)

    def test_why(self) -> None:
        status, told = self.typed("why", str(self.network))
        self.assertEqual(status, 0)
        self.is_shown(told, f"run{WRITTEN} of M{WRITTEN} from A{WRITTEN} to B{WRITTEN}", "minutes in place of")

    def test_compare(self) -> None:
        commands = f"span 1 3 8\nfix 2 4\nsave {self.folder}/after\n"
        self.assertEqual(self.typed("shell", str(self.network), "--times", str(self.times), given=commands)[0], 0)
        (self.folder / "after/times").write_text("1; 5\n2; 10\n")
        status, told = self.typed("compare", str(self.network), f"{self.folder}/after", "--times", str(self.times))
        self.assertEqual(status, 0)
        self.is_shown(told, f"M{WRITTEN} to C{WRITTEN} k{WRITTEN} at B{WRITTEN}: :09 to :10", f"\n  run{WRITTEN} ")

    def test_shell(self) -> None:
        folder = f"{self.folder}/to\x1b[2J\u202e"
        commands = f"times\nsave {folder}\nundo\nsave {self.network}/period/\x1b[2J\n\x1b[2J\n"
        status, told = self.typed("shell", str(self.network), "--times", str(self.times), given=commands)
        self.assertEqual(status, 0)
        self.is_shown(told, f"1 5  M{WRITTEN} to C{WRITTEN} leaves A{WRITTEN}\n", f"# saved: {self.folder}/to\\x1b[2J\\u202e\n")

    def test_report(self) -> None:
        """Its default name is that of the network, and its path can be printed at a terminal."""
        before = os.getcwd()
        self.addCleanup(os.chdir, before)
        os.chdir(self.folder)
        status, told = self.typed("report", str(self.network), "--title", f"T{STEERING}")
        self.assertEqual(status, 0)
        self.is_shown(told, "net\\x1b]0;x\\x07\\x0axxxxxxxxx\\u202e.html\n")
        written = json.dumps(WRITTEN)[1:-1]
        # A script of the page has a tab.
        self.is_shown(Path(f"{self.network.name}.html").read_text("utf-8").replace("\t", ""), f"T{written}", f"A{written}")

    def test_faults(self) -> None:
        name = f"{self.folder}/none\x1b[2J\n\u202e"
        wrong = self.folder / "wrong\x1b[2J\nlabels"
        wrong.write_text("1; x; 3\n")
        network = str(self.network)
        lines: List[List[str]] = [
            ["why", name], ["search", network, "--labels", name], ["report", network, "--labels", str(wrong)],
            ["report", network, "--places", str(wrong)], ["report", network, "--output", f"{name}/x"],
            ["compare", network, name], ["from-lintim", name, "x"], ["from-lintim", str(wrong), "x"], ["to-lintim", str(wrong), "x"],
            ["why", network, "--hard", "\x1b[2J\n\u202e"], ["why", network, "--hard\x1b[2J", "x"], ["search", network, "\x1b[2J"],
            ["search", network, "--seconds", "\x1b[2J"], ["search", network, "--period", "\x1b[2J"], ["\x1b[2J"],
        ]  # fmt: skip
        for words in lines:
            status, told = self.typed(*words)
            self.assertIn(status, (1, 2), words)
            self.is_shown(told)
        self.is_shown(self.typed("report", network, "--labels", str(wrong))[1], "wrong\\x1b[2J\\x0alabels, record 1: ")

    def test_what_a_program_writes(self) -> None:
        program = str(self.stand_in(DYING))
        status, told = self.typed("shell", str(self.network), given="cost\ndomains\n", program=program)
        self.assertEqual((status, told), (0, "fault \\x1b[2J\npespbench: no more \\x1b[2J\n"))


class Shown(unittest.TestCase):
    """Escaped characters."""

    def test_texts(self) -> None:
        self.assertEqual(shown(STEERING), WRITTEN)
        self.assertEqual(shown("a\n\tb\r", LAYOUT), "a\n\tb\\x0d")
        self.assertEqual(shown("Zürich → Köln, 東京, \U0001f682\u200d, שלום"), "Zürich → Köln, 東京, \U0001f682\u200d, שלום")
        self.assertEqual(shown("\udcff"), "\\udcff")
        self.assertEqual(shown(shown(STEERING)), WRITTEN)

    def test_a_stream_of_few_characters(self) -> None:
        data = io.BytesIO()
        stream = io.TextIOWrapper(data, "ascii", newline="")
        write("Zürich → Köln\x1b\n", stream)
        self.assertEqual(data.getvalue(), b"Z\\xfcrich \\u2192 K\\xf6ln\\x1b\n")


if __name__ == "__main__":
    unittest.main()
