"""A stranger's folder with other things instead of files, places beyond any map, and costs beyond the exact numbers of JavaScript."""

from __future__ import annotations

import contextlib
import io
import os
import re
import shutil
import unittest
from typing import Any, Dict, List

from pespbench import Bench, FileFault
from pespbench.__main__ import main
from pespbench.places import on_a_map
from pespbench.report import gather, read_places
from pespbench.report.drawing import drawn
from pespbench.report.page import written
from tests.common import PROGRAM, Case
from tests.pages import NO_NODE

NAMES = ["activities", "period", "fixed", "times", "labels", "places", "windows", "events"]
FAR: List[Dict[str, Any]] = [
    {"Ashford": (1e308, -1e308), "Benton": (-1e308, 1e308), "Cranley": (0.0, 0.0)},
    {"Ashford": (0.0, 0.0), "Benton": (5e-324, 0.0), "Cranley": (0.0, 5e-324)},
    {"Ashford": (1e308, 1e308), "Benton": (1e308, 1e308)},
    {"Ashford": (0.0, 0.0), "Benton": (1e-300, 1e300)},
    {"Ashford": (float("inf"), 0.0), "Benton": (0.0, float("nan"))},
]


class Folders(Case):
    """A saved folder, with another thing instead of one of its files."""

    def setUp(self) -> None:
        super().setUp()
        self.network = self.folder / "network"
        self.network.mkdir()
        texts = ["1; 1; 2; 3; 5; 2\n", "10\n", "1; 3\n", "1; 3\n2; 6\n", "event; line\n1; M\n", "Ashford; 1; 2\n", "2; 6; 3\n", "7\n"]
        for name, text in zip(NAMES, texts):
            (self.network / name).write_text(text)

    def fault(self, name: str) -> str:
        with self.assertRaises(FileFault) as told:
            Bench.load(self.network, program=PROGRAM)
        self.assertEqual(told.exception.path, str(self.network / name))
        return told.exception.text

    def test_links(self) -> None:
        """A link to another file of the folder is followed, and no other one."""
        for name in NAMES:
            path = self.network / name
            for target in (str(self.folder / "outside"), "../outside", "/dev/zero", "/nowhere"):
                path.rename(self.folder / "outside")
                path.symlink_to(target)
                self.assertEqual(self.fault(name), "it is a link out of its folder")
                path.unlink()
                (self.folder / "outside").rename(path)
        (self.network / "activities").rename(self.network / "those")
        (self.network / "activities").symlink_to("those")
        with Bench.load(self.network, program=PROGRAM) as bench:
            self.assertEqual((list(bench.network.activities), bench.labels.events[1].line), ([1], "M"))

    def test_a_pipe_is_not_waited_for(self) -> None:
        for name in NAMES:
            path = self.network / name
            path.rename(self.folder / "aside")
            os.mkfifo(path)
            self.assertEqual(self.fault(name), "it is no file")
            path.unlink()
            (self.folder / "aside").rename(path)

    def test_a_link_in_the_place_of_a_report(self) -> None:
        """Under a default name, a report is not written through a link."""
        victim, before = self.folder / "victim", os.getcwd()
        victim.write_text("mine\n")
        (self.folder / "network.html").symlink_to(victim)
        self.addCleanup(os.chdir, before)
        os.chdir(self.folder)
        with contextlib.redirect_stdout(io.StringIO()):
            self.assertEqual(main(["report", str(self.network), "--program", PROGRAM]), 0)
        self.assertEqual((victim.read_text(), (self.folder / "network.html").is_symlink()), ("mine\n", False))

    def test_places_of_a_folder(self) -> None:
        """The report reads those of the folder like the bench."""
        (self.network / "places").unlink()
        (self.network / "places").symlink_to(self.folder / "victim")
        (self.folder / "victim").write_text("Secret; 1; 2\n")
        with contextlib.redirect_stderr(io.StringIO()) as told:
            self.assertEqual(main(["report", str(self.network), "--program", PROGRAM, "--output", str(self.folder / "out")]), 1)
        self.assertIn("it is a link out of its folder", told.getvalue())


class Drawn(Case):
    """A report and its pictures."""

    def content(self, places: Any, weight: int = 5, count: int = 6) -> Dict[str, Any]:
        """The content of a report on stations of one line, whose numbers are as great as possible."""
        stations, events, slack = ["Ashford", "Benton", "Cranley"], list(range(1, count + 1)), 1_439
        rows = [[event, event, event % count + 1, 3, 9, weight + event % 2] for event in events]
        return {
            "title": "Far", "network": {"period": 1_440, "events": events, "windows": [], "activities": rows},
            "labels": {"events": [[event, "M", "Cranley", stations[event % 3], "departure"] for event in events], "kinds": []},
            "places": [list(each) for each in on_a_map(places).items()], "times": [[event, event % 1_440] for event in events], "domains": [],
            "search": "", "isInfeasible": False, "tensions": [[event, 3 + slack, slack] for event in events],
            "violations": {"activities": [], "events": []}, "cost": str(sum(row[5] * slack for row in rows)), "missing": "",
        }  # fmt: skip

    @unittest.skipUnless(shutil.which("node"), NO_NODE)
    def test_places_beyond_any_map(self) -> None:
        for places in FAR:
            for what in ("netgraph", "report"):
                self.assertNotRegex(drawn(what, self.content(places)), "NaN|Infinity|undefined", places)

    def test_places_that_are_drawn_as_they_are(self) -> None:
        plain: List[Dict[str, Any]] = [{}, {"A": (1.5, -2.0)}, {"A": (0.0, 0.0), "B": (1e9, -1e9)}, {"A": (7.0, 7.0), "B": (7.0, 7.0)}]
        for places in plain:
            self.assertEqual(on_a_map(places), places)

    def test_places_of_a_file(self) -> None:
        path = self.folder / "places"
        path.write_text("Ashford; 1e308; -1e308\nBenton; -1e308; 1e308\n")
        with Bench.open(None, program=PROGRAM) as bench:
            content = gather(bench, "Far", read_places(path))
        self.assertEqual(content["places"], [["Ashford", (1_000.0, 0.0)], ["Benton", (0.0, 1_000.0)]])

    def test_no_number_is_no_json(self) -> None:
        self.assertRaises(ValueError, written, {"places": [["Ashford", [float("nan"), 1]]]})

    @unittest.skipUnless(shutil.which("node"), NO_NODE)
    def test_costs_to_the_last_digit(self) -> None:
        content = self.content({}, 999_999_998, 7_999)
        self.assertGreater(int(content["cost"]), 2**53)
        told = re.findall("(?:[0-9]{1,3},){5}[0-9]{3}", drawn("report", content))
        self.assertEqual(set(told), {f"{int(content['cost']):,}"})
        self.assertGreaterEqual(len(told), 2)


if __name__ == "__main__":
    unittest.main()
