"""What Tab completes in the shell."""

from __future__ import annotations

import os
import unittest
from typing import Dict, List

from pespbench import Activity, Network
from pespbench.completion import Completion, candidates
from pespbench.shell import ENDS, OWN
from tests.common import Case

NETWORK = Network(10, dict.fromkeys([12, 3, 1]), {number: Activity(number, 1, 3, 2, 4) for number in (21, 7)})
MORE = (*OWN, *ENDS)


class Candidates(Case):
    """The completions of typed words; the cursor is at their end."""

    def completed(self, line: str) -> List[str]:
        *before, begun = line.split(" ")
        return candidates(before, begun, NETWORK, MORE)

    def test_words(self) -> None:
        table: Dict[str, List[str]] = {
            "dom": ["domain", "domains"], "unt": ["untime"], "wh": ["why"], "hel": ["help", "helps"], "se": ["search"], "ex": ["exit"],
            "add ": ["activity", "event"], "drop a": ["activity"], "x": [], "cost ": [], "domains ": [], "optimum 1": [],
        }  # fmt: skip
        for line, wanted in table.items():
            self.assertEqual(self.completed(line), wanted, line)
        self.assertEqual(set(self.completed("")) & {"add", "domain", "why", "quit", "redo"}, {"add", "domain", "why", "quit", "redo"})

    def test_numbers(self) -> None:
        """Existing events and activities, but no times, spans and new numbers."""
        events, activities = ["1", "3", "12"], ["7", "21"]
        table: Dict[str, List[str]] = {
            "fix ": events, "domain 1": ["1", "12"], "fix 1 ": [], "drop event ": events, "add event ": [], "span ": activities, "span 2": ["21"],
            "span 7 ": [], "ends 7 ": events, "ends 7 1 ": events, "ends 7 1 3 ": [], "add activity ": [], "add activity 8 1 1": ["1", "12"],
        }  # fmt: skip
        for line, wanted in table.items():
            self.assertEqual(self.completed(line), wanted, line)

    def test_folders(self) -> None:
        (self.folder / "here").mkdir()
        (self.folder / "held").write_text("")
        self.assertEqual(self.completed(f"save {self.folder}{os.sep}he"), [f"{self.folder}/here/"])
        self.assertEqual(self.completed(f"save {self.folder} x"), [])

    def test_asked_one_by_one(self) -> None:
        completion = Completion(lambda: NETWORK, MORE, lambda: "fix 1")
        self.assertEqual([completion("1", place) for place in range(3)], ["1", "12", None])


if __name__ == "__main__":
    unittest.main()
