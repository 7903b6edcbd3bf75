"""The subcommands why, report and compare as typed."""

from __future__ import annotations

import contextlib
import io
import os
import shutil
import unittest
from unittest import mock
from xml.etree import ElementTree

from pespbench import Bench
from pespbench.__main__ import main
from pespbench.drawn import draw_region
from tests.common import EXAMPLES, PROGRAM, Case
from tests.pages import NO_NODE

LINE = str(EXAMPLES / "hourly-line/activities")
TIMES = str(EXAMPLES / "hourly-line/times")


class Words(Case):
    """Command lines with their output."""

    def typed(self, *words: str, status: int = 0) -> str:
        """The output of a command line that ends with a status."""
        with contextlib.redirect_stdout(io.StringIO()) as told:
            self.assertEqual(main([*words, "--program", PROGRAM]), status)
        return told.getvalue()

    def refused(self, *words: str) -> None:
        """A command line with wrong arguments."""
        with contextlib.redirect_stderr(io.StringIO()), self.assertRaises(SystemExit) as caught:
            main(list(words))
        self.assertEqual(caught.exception.code, 2)

    def test_why(self) -> None:
        self.assertEqual(self.typed("why", LINE), "A timetable meets everything, so there is no conflict.\n")
        fixed = self.folder / "fixed"
        fixed.write_text("1; 0\n2; 30\n")
        told = self.typed("why", LINE, "--fixed", str(fixed), "--nodes", "50", "--seconds", "100")
        self.assertIn("they take 24 to 26 minutes, and have to take 30.", told)
        self.assertIn("  4 minutes more  activity 11 from event 1 to event 2  24 to 30 minutes in place of 24 to 26\n", told)

    def test_hard(self) -> None:
        draw_region(3, feasible=False).save(self.folder)
        network = str(self.folder / "activities")
        told = self.typed("why", network, "--labels", str(self.folder / "labels"), "--hard", "run,dwell,headway", "--seconds", "100")
        self.assertIn("minutes (hard)\n", told)
        self.assertEqual(self.typed("why", network, "--labels", str(self.folder / "labels"), "--seconds", "100"), told)
        self.assertIn("The least that mends it", told)

    def test_report(self) -> None:
        draw_region(3).save(self.folder)
        files = [f"--{name}={self.folder / name}" for name in ("times", "labels", "places")]
        output = self.folder / "report.html"
        words = [str(self.folder / "activities"), *files, "--title", "A region"]
        self.assertEqual(self.typed("report", *words, "--output", str(output)), "")
        text = output.read_text(encoding="utf-8")
        self.assertEqual(self.typed("report", *words, "--output", "-"), text)
        self.assertIn('"violations":{"activities":[],"events":[]}', text)

    @unittest.skipUnless(shutil.which("node"), NO_NODE)
    def test_netgraph(self) -> None:
        draw_region(3).save(self.folder)
        (self.folder / "period").write_text("60\n")
        output, picture = self.folder / "report.html", self.folder / "netgraph.svg"
        self.assertEqual(self.typed("report", str(self.folder), "--output", str(output), "--netgraph", str(picture)), "")
        netgraph = ElementTree.parse(picture).getroot()
        drawn = {node.get("data-event") for node in netgraph.iter() if node.get("data-event")}
        self.assertEqual(drawn, {str(each.number) for each in draw_region(3).events})
        self.assertEqual(netgraph.tag, "{http://www.w3.org/2000/svg}svg")
        self.assertNotIn("var(", picture.read_text(encoding="utf-8"))

    def test_netgraph_without_node(self) -> None:
        """Without Node the report is written, with a warning that it lacks the netgraph."""
        output, picture = self.folder / "report.html", self.folder / "netgraph.svg"
        with contextlib.redirect_stderr(io.StringIO()) as told, mock.patch("pespbench.report.drawing.shutil", mock.Mock(which=lambda name: None)):
            self.typed("report", LINE, "--output", str(output), "--netgraph", str(picture), status=1)
        self.assertEqual((output.exists(), picture.exists()), (True, False))
        self.assertIn("no netgraph is drawn: it is drawn by the page's JavaScript under Node", told.getvalue())

    def test_report_by_default(self) -> None:
        """It is written to a file that is named after the network, which is printed, and not to the terminal."""
        before = os.getcwd()
        self.addCleanup(os.chdir, before)
        os.chdir(self.folder)
        self.assertEqual(self.typed("report", LINE), "activities.html\n")
        text = (self.folder / "activities.html").read_text(encoding="utf-8")
        self.assertEqual(self.typed("report", LINE, "--output", "-"), text)
        (self.folder / "a line").mkdir()
        with Bench.open(LINE, times=TIMES, program=PROGRAM) as bench:
            bench.save("a line")
        self.assertEqual(self.typed("report", "a line/"), "a line.html\n")
        os.chdir("a line")
        self.assertEqual(self.typed("report", "."), "a line.html\n")
        self.assertTrue((self.folder / "a line/a line.html").read_text(encoding="utf-8").startswith("<!doctype html>"))

    def test_places_of_a_folder(self) -> None:
        draw_region(3).save(self.folder)
        (self.folder / "period").write_text("60\n")
        told = self.typed("report", str(self.folder), "--search", "0.01", "--output", "-")
        (self.folder / "places").unlink()
        laid_out = self.typed("report", str(self.folder), "--search", "0.01", "--output", "-")
        self.assertIn('"places":[]', laid_out)
        self.assertRegex(told, r'"places":\[\["\w+",\[')

    def test_search(self) -> None:
        told = self.typed("report", LINE, "--search", "20", "--output", "-")
        self.assertIn("The best timetable costs ", told)
        fixed = self.folder / "fixed"
        fixed.write_text("1; 0\n2; 30\n")
        self.assertIn("No timetable meets everything.", self.typed("report", LINE, "--fixed", str(fixed), "--search", "20", "--output", "-"))

    def test_compare(self) -> None:
        told = self.typed("compare", LINE, LINE, "--times", TIMES, "--other-times", TIMES)
        self.assertEqual(told.count("no change"), 2)
        self.assertIn("  in all   ", told)

    def test_wrong_words(self) -> None:
        self.refused("why", LINE, "--nodes", "0")
        self.refused("why", LINE, "--seconds", "-1")
        self.refused("why", LINE, "--seconds", "nan")
        self.refused("report")
        self.refused("compare", LINE)

    def test_faults(self) -> None:
        places = self.folder / "places"
        places.write_text("Ashford; 1\n")
        with contextlib.redirect_stderr(io.StringIO()) as told:
            self.typed("report", LINE, "--places", str(places), status=1)
            self.typed("report", LINE, "--places", str(self.folder / "missing"), status=1)
            self.typed("why", str(self.folder / "missing"), status=1)
        self.assertIn("record 1: wanted station; x; y", told.getvalue())
        self.assertIn(f"activities file {self.folder}/missing cannot be read. There is no such file.\n", told.getvalue())


if __name__ == "__main__":
    unittest.main()
