"""At periods of several hours, times are written with their hour: in the report, in why and in a comparison."""

from __future__ import annotations

import shutil
import unittest

from pespbench import Bench, EventLabel, Labels
from pespbench.compare import Side, compare
from pespbench.report import gather
from pespbench.report.drawing import drawn
from pespbench.why import text_of, why
from pespbench.wording import Names, clock, window_text
from tests.common import PROGRAM, Case
from tests.pages import NO_NODE, Page

DAY = 1_440


class Day(Case):
    """A train that leaves at a quarter past six."""

    def setUp(self) -> None:
        super().setUp()
        path = self.folder / "activities"
        path.write_text("1; 1; 2; 60; 90; 2\n")
        labels = Labels({1: EventLabel("M", "Benton", "Ashford", "departure"), 2: EventLabel("M", "Benton", "Benton", "arrival")})
        labels.activities[1] = "run"
        self.bench = Bench.open(path, period=DAY, labels=labels, program=PROGRAM)
        self.addCleanup(self.bench.close)
        self.bench.set_times({1: 375, 2: 440})

    @unittest.skipUnless(shutil.which("node"), NO_NODE)
    def test_report(self) -> None:
        self.bench.window(1, 370, 11)
        self.bench.fix(2, 459)
        page = Page(drawn("report", gather(self.bench, "A day"))).root
        cells = [node.text for node in page.all("data-event") if node.tag in ("td", "tspan")]
        self.assertEqual(set(cells), {"6:15", "7:20✕"})
        domains = {node.number("data-domain"): [each.text for each in node.children[:2]] for node in page.all("data-domain")}
        self.assertEqual(domains[1], ["M to Benton leaves Ashford at 6:15 · held from 6:10 to 6:20", "6:10–6:20"])
        self.assertEqual(domains[2], ["M to Benton arrives at Benton at 7:20 · held at 7:39", "7:39"])
        violated = [cell.text for cell in page.all("data-violated-event")[0].children]
        self.assertEqual(violated, ["M to Benton arrives at Benton", "at 7:39", "7:20", "19 minutes early"])
        axis = [node.text for node in page.all("class") if node.attributes["class"] == "axis"]
        self.assertEqual(axis, [f"{hour % 24}:00" for hour in range(0, 26, 2)])
        figures = {node.attributes["data-figure"]: node.children[0].text for node in page.all("data-figure")}
        self.assertEqual(figures["period"], "24:00")
        self.assertNotRegex(page.text, "(^|[ >]):[0-9]")

    def test_why(self) -> None:
        self.bench.fix(1, 375)
        self.bench.window(2, 500, 7)
        told = text_of(why(self.bench), Names(self.bench.labels, self.bench.network.activities))
        self.assertRegex(told, r"M to Benton leaves Ashford +at 6:15\n")
        self.assertRegex(told, r"M to Benton arrives at Benton +from 8:20 to 8:26\n")
        self.assertIn("60 to 90 minutes", told)
        self.assertIn("from 7:45 to 8:26 in place of from 8:20 to 8:26", told)

    def test_compare(self) -> None:
        before = Side.of(self.bench)
        self.bench.time(1, 370)
        self.bench.window(2, 435, 10)
        told = compare(before, Side.of(self.bench))
        self.assertIn("M to Benton leaves Ashford: 6:15 to 6:10 (-5 minutes)\n", told)
        self.assertIn("M to Benton arrives at Benton: held from 7:15 to 7:24, was not held\n", told)

    def test_words(self) -> None:
        told = [clock(7, 60), clock(7, 10), clock(75, 90), clock(75, 120), clock(0, DAY)]
        self.assertEqual(told, [":07", ":07", "1:15", "1:15", "0:00"])
        self.assertEqual(window_text(1_430, 20, DAY), "from 23:50 to 0:09")


if __name__ == "__main__":
    unittest.main()
