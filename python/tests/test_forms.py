"""Answers on the command line as JSON and as CSV have the same contents as the text."""

from __future__ import annotations

import csv
import io
import json
import unittest
from typing import Any, Dict, List
from unittest import mock

from tests.common import EXAMPLES, PROGRAM, Case, run_words

TWO = [str(EXAMPLES / "two-trains/activities"), "--period=10", f"--program={PROGRAM}"]
CHANGES = [str(EXAMPLES / "two-changes"), f"--program={PROGRAM}"]
ASKED = ["fix 1 0", "domain 2", "optimum", "try 0", "cost", "fix 7 1", "fix 1 a", "adopt", "tensions", "time 2 9", "violations", "cost", "dump", "span 1 3 3", "optimum"]
OPTIMUM: Dict[str, Any] = {"answer": "optimum", "cost": 4, "rows": [{"event": 1, "time": 0}, {"event": 2, "time": 4}]}
TOLD: List[Dict[str, Any]] = [
    {"answer": "ok"}, {"answer": "domains", "rows": [{"event": 2, "times": [4, 5]}]}, OPTIMUM, OPTIMUM,
    {"answer": "refused", "number": 11, "event": 1, "activity": None, "text": "refused 11 event 1 has no time"},
    {"answer": "refused", "number": 2, "event": 7, "activity": None, "text": "refused 2 no event 7"},
    {"answer": "fault", "word": 3, "text": "fault word 3 is not a number"}, OPTIMUM,
    {"answer": "tensions", "rows": [{"activity": 1, "tension": 4, "slack": 1}, {"activity": 2, "tension": 6, "slack": 2}]}, {"answer": "ok"},
    {"answer": "violations", "rows": [{"of": "activity", "number": 1}, {"of": "activity", "number": 2}]}, {"answer": "cost", "cost": 19},
    {"answer": "dump", "rows": [{"command": line} for line in ("add event 1", "add event 2", "fix 1 0", "add activity 1 1 2 3 5 2", "add activity 2 2 1 4 6 1")]},
    {"answer": "ok"}, {"answer": "infeasible", "cost": None, "rows": []},
]  # fmt: skip


def asked(*commands: str) -> List[str]:
    """The words of command lines that answer."""
    return [word for command in commands for word in ("-c", command)]


class Forms(Case):
    """The answer of each subcommand."""

    def json(self, *words: str) -> List[Any]:
        """The contents of each line of a subcommand's answer."""
        return [json.loads(line) for line in run_words(*words, "--json")[1].splitlines()]

    def csv(self, *words: str) -> List[Dict[str, str]]:
        """The rows of a subcommand's tables."""
        tables = run_words(*words, "--csv")[1].split("\n\n")
        return [row for table in tables for row in csv.DictReader(io.StringIO(table))]

    def test_ask(self) -> None:
        self.assertEqual(self.json("ask", *TWO, *asked(*ASKED)), TOLD)
        rows = self.csv("ask", *TWO, *asked(*ASKED))
        self.assertEqual((rows[0], rows[1]), ({"answer": "ok"}, {"answer": "domains", "event": "2", "times": "4 5"}))
        self.assertEqual(rows[2:4], [{"answer": "optimum", "cost": "4", "event": str(row), "time": str(time)} for row, time in ((1, 0), (2, 4))])
        self.assertEqual(rows[-1], {"answer": "infeasible", "cost": "", "event": "", "time": ""})
        self.assertEqual(self.json("ask", "/dev/null", TWO[-1], *asked("domains", "tensions")), [{"answer": "domains", "rows": []}, {"answer": "tensions", "rows": []}])

    def test_lines_of_standard_input(self) -> None:
        with mock.patch("sys.stdin", io.StringIO("# first\n\nfix 1 0\ndomains\n")):
            self.assertEqual(run_words("ask", *TWO), (0, "ok\n1: 0\n2: 4 5\n".replace("1:", "domains 2\n1:")))
        self.assertEqual(run_words("ask", *TWO, *asked("cost", "fix 1 0")), (1, "refused 11 event 1 has no time\nok\n"))

    def test_search(self) -> None:
        self.assertEqual((self.json("search", *TWO), len(self.csv("search", *TWO))), ([OPTIMUM], 2))

    def test_why(self) -> None:
        [told] = self.json("why", *CHANGES, "--hard=run,dwell,headway")
        rows = self.csv("why", *CHANGES, "--hard=run,dwell,headway")
        self.assertEqual((told["answer"], told["is_least"], [row["part"] for row in told["rows"]]), ("conflict", True, 6 * ["member"] + 3 * ["mend"]))
        wanted = {"of": "activity", "number": 42, "name": "turn at Dale from B to Dale into B to Benton", "lower": 6, "upper": 10, "minutes": 2, "whole": "possible"}
        self.assertEqual({name: told["rows"][6][name] for name in wanted}, wanted)
        self.assertEqual([{name: row[name] for name in wanted} for row in rows[6:7]], [{name: str(value) for name, value in wanted.items()}])
        self.assertEqual({row["hard"] for row in rows}, {"true", "false"})
        self.assertEqual(self.json("why", *TWO), [{"answer": "possible", "rows": OPTIMUM["rows"]}])

    def test_helps(self) -> None:
        [told] = self.json("helps", *TWO, "--minutes=3")
        self.assertEqual((told["before"], told["cost_before"], told["asked"]), ("optimum", 4, 2))
        self.assertEqual([(row["activity"], row["upper"], row["found"], row["cost"], row["saves"]) for row in told["rows"]], [(2, 9, "optimum", 3, 1), (1, 8, "optimum", 4, 0)])
        self.assertEqual([row["saves"] for row in self.csv("helps", *TWO, "--minutes=3")], ["1", "0"])

    def test_compare(self) -> None:
        [told] = self.json("compare", *TWO, TWO[0], f"--times={EXAMPLES / 'two-trains/times'}", f"--other-times={EXAMPLES / 'two-trains/times'}")
        self.assertEqual((told["cost_before"], told["cost"], {row["part"] for row in told["rows"]}), (3, 3, {"cost by kind", "violations"}))


if __name__ == "__main__":
    unittest.main()
