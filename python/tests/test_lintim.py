"""LinTim's files as files of pespbench, and times back."""

from __future__ import annotations

import argparse
import contextlib
import io
import queue
import threading
import unittest
from pathlib import Path
from typing import Mapping

from pespbench import Activity, Bench, EventLabel, FileFault
from pespbench.lintim import LinTim, add_parser, files_in, period_in, read_lintim
from pespbench.report import read_places
from tests.common import LONG, PROGRAM, Case

ACTIVITIES = """\
# activity_index; type; from_event; to_event; lower_bound; upper_bound; passengers
1; "drive"; 1; 2; 24; 26; 120
2; "wait"; 2; 3; 2; 5; 90.5
3; "drive"; 3; 4; 31.0; 33; 70
4; "change"; 2; 5; 4; 63; 30.25
5; "headway"; 3; 5; 3; 57; 0
"""
TIMETABLE = "# event_index; time\n1; 3\n2; 28\n3; 31\n4; 62\n5; 35\n"
EVENTS = """\
# event_index; type; stop_id; line_id; passengers; direction; repetition
1; "departure"; 7; 1; 120; >; 1
2; "arrival"; 8; 1; 120; >; 1
3; "departure"; 8; 1; 70; >; 1
4; "arrival"; 9; 1; 70; >; 1
5; "departure"; 8; 2; 30; <; 1
"""
STOPS = '# stop; short; long; x; y\n7; A; "Ashford"; 0.0; 1.5\n8; B; "Benton"; 10; 2\n9; C; ; 20; -1\n'
# LinTim's paths of files.
LINTIM = {
    "activities": "timetabling/Activities-periodic.giv", "timetable": "timetabling/Timetable-periodic.tim",
    "events": "timetabling/Events-periodic.giv", "stops": "basis/Stop.giv",
}  # fmt: skip


class LinTimFiles(Case):
    """Files in LinTim's form."""

    def setUp(self) -> None:
        super().setUp()
        texts = {"activities": ACTIVITIES, "timetable": TIMETABLE, "events": EVENTS, "stops": STOPS}
        self.paths = {name: self.folder / f"{name}.giv" for name in texts}
        for name, text in texts.items():
            self.paths[name].write_text(text)

    def read(self) -> LinTim:
        """The contents of the four files."""
        return read_lintim(*(self.paths[name] for name in ("activities", "timetable", "events", "stops")))

    def run_words(self, *words: str) -> str:
        """Runs a subcommand; returns its standard error."""
        parser = argparse.ArgumentParser()
        add_parser(parser.add_subparsers())
        chosen = parser.parse_args(words)
        with contextlib.redirect_stderr(io.StringIO()) as told:
            self.assertEqual(chosen.run(chosen), 0)
        return told.getvalue()

    def test_read(self) -> None:
        read = self.read()
        self.assertEqual(read.scale, 100)
        self.assertEqual(read.activities[2], Activity(2, 2, 3, 2, 5, 9050))
        self.assertEqual(read.activities[3], Activity(3, 3, 4, 31, 33, 7000))
        self.assertEqual(read.times, {1: 3, 2: 28, 3: 31, 4: 62, 5: 35})
        self.assertEqual(read.labels.activities, {1: "run", 2: "dwell", 3: "run", 4: "change", 5: "headway"})
        self.assertEqual(read.labels.events[1], EventLabel("L1", "C", "Ashford", "departure"))
        self.assertEqual(read.labels.events[5], EventLabel("L2", "Benton", "Benton", "departure"))
        self.assertEqual(read.places, {"Ashford": (0.0, 1.5), "Benton": (10.0, 2.0), "C": (20.0, -1.0)})

    def test_whole_passengers(self) -> None:
        self.paths["activities"].write_text(ACTIVITIES.replace("90.5", "90.0").replace("30.25", "3e1"))
        read = read_lintim(self.paths["activities"])
        self.assertEqual((read.scale, read.activities[2].weight, read.activities[4].weight), (1, 90, 30))
        self.assertEqual((read.times, read.labels.events), ({}, {}))

    def test_folder_and_back(self) -> None:
        words = [f"--{name}={self.paths[name]}" for name in ("timetable", "events", "stops")]
        told = self.run_words("from-lintim", str(self.paths["activities"]), str(self.folder / "network"), *words)
        self.assertIn("weights are 100 times the passengers", told)
        with Bench.load(self.folder / "network", program=PROGRAM) as bench:
            self.assertEqual(bench.period, 60)
            self.assertEqual(bench.network.activities, self.read().activities)
            self.assertEqual(bench.times, {1: 3, 2: 28, 3: 31, 4: 2, 5: 35})
            self.assertEqual(len(bench.violations()), 0)
            self.assertEqual(bench.cost(), 12_000 + 9_050 + 3 * 3_025)
            self.assertEqual(bench.labels.events, self.read().labels.events)
        self.assertEqual(read_places(self.folder / "network/places"), self.read().places)
        self.run_words("to-lintim", str(self.folder / "network/times"), str(self.folder / "back.tim"))
        self.assertEqual((self.folder / "back.tim").read_text(), TIMETABLE.replace("62", "2"))

    def folder_of(self, names: Mapping[str, str]) -> Path:
        """A folder with LinTim's files under other names."""
        folder = self.folder / "lintim"
        for name, place in names.items():
            (folder / place).parent.mkdir(parents=True, exist_ok=True)
            (folder / place).write_text(self.paths[name].read_text())
        return folder

    def test_folders(self) -> None:
        """A folder of LinTim is read, written and read again, with the period of a configuration that it includes."""
        lintim, network, back = self.folder_of(LINTIM), self.folder / "network", self.folder / "back"
        (lintim / "basis/Config.cnf").write_text('include; "../../Global.cnf"\nperiod_length; 30\ninclude_if_exists; "After.cnf"\n')
        (lintim / "basis/After.cnf").write_text("# config_key; value\nperiod_length; 120\ninclude; Config.cnf\n")
        (self.folder / "Global.cnf").write_text("period_length; 20\n")
        self.run_words("from-lintim", str(lintim), str(network))
        with Bench.load(network, program=PROGRAM) as bench:
            bench.many(["fix 1 3", "window 2 4 5"])
            self.assertEqual((bench.period, len(bench.labels.events), len(bench.places)), (120, 5, 3))
            known = bench.network.activities, bench.times, bench.labels, bench.places
            bench.save(network)
        told = self.run_words("to-lintim", str(network), str(back), f"--program={PROGRAM}")
        self.assertEqual(told, "LinTim has no windows, and 2 are left out\n")
        self.assertIn("1; \"drive\"; 1; 2; 24; 26; 12000\n", (back / "timetabling/Activities-periodic.giv").read_text())
        self.assertIn('5; "departure"; 2; 2; 0; >; 1\n', (back / "timetabling/Events-periodic.giv").read_text())
        self.assertEqual(self.run_words("from-lintim", str(back), str(network)), "")
        with Bench.load(network, program=PROGRAM) as bench:
            self.assertEqual((bench.period, *known), (120, bench.network.activities, bench.times, bench.labels, bench.places))

    def test_columns_by_their_names(self) -> None:
        """Columns are in the order of a comment, like those of TimPassLib, without passengers."""
        rows = "# activity_index; from_event; to_event; lower_bound; upper_bound; type\n7; 1; 2; 24; 26; DRIVE\n8; 2; 3; 2; 5; change\n"
        self.paths["activities"].write_text(rows)
        self.paths["events"].write_text("# type; event index; Line-ID; stop_id; direction\ndeparture; 1; 4; 7; >\narrival; 2; 4; 8; >\n")
        lintim = self.folder_of({"activities": "Activities.csv", "events": "Events.csv", "stops": "Stops.csv", "timetable": "Timetable.csv"})
        (lintim / "Config.csv").write_text("# key; value\nperiod_length; 40\nchange_penalty; 5\n")
        told = self.run_words("from-lintim", str(lintim), str(self.folder / "network"))
        self.assertEqual(told, "there are no passengers, so that all weights are 0\n")
        with Bench.load(self.folder / "network", program=PROGRAM) as bench:
            self.assertEqual(bench.network.activities, {7: Activity(7, 1, 2, 24, 26, 0), 8: Activity(8, 2, 3, 2, 5, 0)})
            self.assertEqual((bench.period, bench.times), (40, {1: 3, 2: 28, 3: 31}))
            self.assertEqual(bench.labels.events[1], EventLabel("L4", "Benton", "Ashford", "departure"))
            self.assertEqual(bench.labels.activities, {7: "run", 8: "change"})

    def test_rows_of_six_fields(self) -> None:
        self.paths["activities"].write_text("1; drive; 1; 2; 3; 4\n2; wait; 2; 3; 1; 2; 7\n3; wait; 2; 3; 1; 2;\n")
        self.assertEqual([each.weight for each in read_lintim(self.paths["activities"]).activities.values()], [0, 7, 0])

    def test_faults_of_folders(self) -> None:
        lintim = self.folder_of(LINTIM)
        config = lintim / "basis/Config.cnf"
        for text in ("period_length; 1441\n", "period_length; x\n", "period_length\n"):
            config.write_text(text)
            with self.subTest(text=text), self.assertRaises(FileFault):
                period_in(config, lintim)
        config.write_text('include; "../../Global.cnf"\n')
        (self.folder / "Global.cnf").write_text("period_length; 20\n")
        self.assertIsNone(period_in(config, lintim))
        (lintim / LINTIM["activities"]).unlink()
        self.assertRaisesRegex(FileFault, "there is no timetabling/Activities", files_in, lintim)
        (lintim / LINTIM["activities"]).symlink_to(self.paths["activities"])
        self.assertRaisesRegex(FileFault, "link out of its folder", files_in, lintim)

    def test_faults(self) -> None:
        wrong = {"1; drive; 1; 2; 3": 2, "1; drive; one; 2; 3; 4; 5": 2, "1; drive; 1; 2; 3.5; 4; 5": 2}
        wrong.update({"1; drive; 1; 2; 4; 3; 5": 2, "7; drive; 1; 2; 3; 4; nan": 2, "7; drive; 1; 2; 3; 4; 5\n7; wait; 1; 2; 3; 4; 5": 3})
        for rows, record in wrong.items():
            with self.subTest(rows=rows), self.assertRaises(FileFault) as caught:
                self.paths["activities"].write_text(f"# header\n{rows}\n")
                self.read()
            self.assertEqual((caught.exception.path, caught.exception.record), (str(self.paths["activities"]), record))

    def test_no_text_and_no_table(self) -> None:
        """Python's text on a damaged file is replaced."""
        for data, wanted in {b"1; drive; \xff\n": "it is not in UTF-8", b"1; " + 200_000 * b"x": "it cannot be cut into fields"}.items():
            self.paths["activities"].write_bytes(data)
            self.assertRaisesRegex(FileFault, f"activities.giv, record 1: {wanted}", self.read)

    def test_passengers_that_are_no_weight(self) -> None:
        for passengers in ("-1", "2000000000", "1e-12", "500000000.25", "1e9999999", "1e-9999999", "1." + "0" * 80 + "1"):
            self.paths["activities"].write_text(f"1; drive; 1; 2; 3; 4; {passengers}\n")
            with self.subTest(passengers=passengers), self.assertRaises(FileFault):
                self.read()

    def test_numbers_out_of_range(self) -> None:
        for rows in ("1; drive; 1; 2; 3; 1e9999999; 5", "1; drive; 1; 1e9999999; 3; 4; 5", "-1; drive; 1; 2; 3; 4; 5", "1; drive; 1; 2; -1000001; 4; 5"):
            with self.subTest(rows=rows), self.assertRaises(FileFault) as caught:
                self.paths["activities"].write_text(f"{rows}\n")
                self.read()
            self.assertEqual(caught.exception.record, 1)
        self.paths["activities"].write_text(ACTIVITIES)
        self.paths["stops"].write_text("7; A; Ashford; 1e9999999; 0\n")
        self.assertRaises(FileFault, self.read)

    def test_period(self) -> None:
        for period in ("0", "1", "1441", "-60", "x"):
            with contextlib.redirect_stderr(io.StringIO()), self.assertRaises(SystemExit) as caught:
                self.run_words("from-lintim", str(self.paths["activities"]), str(self.folder / "network"), "--period", period)
            self.assertEqual(caught.exception.code, 2)
        self.assertFalse((self.folder / "network").exists())

    def test_drives_in_circles(self) -> None:
        """A train whose drives lead into a circle, or round one, ends before it reaches an event again."""
        rows = ["1; drive; 1; 2; 3; 4; 5", "2; drive; 2; 3; 3; 4; 5", "3; wait; 3; 2; 3; 4; 5", "4; drive; 4; 5; 3; 4; 5", "5; drive; 5; 4; 3; 4; 5"]
        self.paths["activities"].write_text("\n".join(rows))
        self.paths["events"].write_text("".join(f"{event}; departure; {event}; 1\n" for event in range(1, 6)))
        found: "queue.Queue[LinTim]" = queue.Queue()
        threading.Thread(target=lambda: found.put(read_lintim(self.paths["activities"], None, self.paths["events"])), daemon=True).start()
        to = {event: label.to for event, label in found.get(timeout=LONG).labels.events.items()}
        self.assertEqual(to, {1: "stop 3", 2: "stop 3", 3: "stop 3", 4: "stop 5", 5: "stop 5"})

    def test_names_in_places(self) -> None:
        self.paths["stops"].write_text('7; A; "Ashford; west"; 0; 1\n8; B; "#3 ""Benton"""; 10; 2\n9; C; Cranley # 1; 20; -1\n')
        folder = str(self.folder / "network")
        self.run_words("from-lintim", str(self.paths["activities"]), folder, "--stops", str(self.paths["stops"]))
        wanted = {"Ashford; west": (0.0, 1.0), '#3 "Benton"': (10.0, 2.0), "Cranley # 1": (20.0, -1.0)}
        self.assertEqual(read_places(self.folder / "network/places"), wanted)

    def test_folder_of_another_network(self) -> None:
        folder = self.folder / "network"
        with self.two_trains() as bench:
            bench.many(["fix 1 3", "window 2 4 5", "add event 70"])
            bench.places = {"Ashford": (1.0, 2.0)}
            bench.save(folder)
        self.run_words("from-lintim", str(self.paths["activities"]), str(folder))
        with Bench.load(folder, program=PROGRAM) as bench:
            self.assertEqual(bench.network.windows, dict.fromkeys(range(1, 6)))
            self.assertEqual((bench.times, bench.places), ({}, {}))

    def test_missing_file(self) -> None:
        self.assertRaises(OSError, read_lintim, Path(self.folder / "missing"))


if __name__ == "__main__":
    unittest.main()
