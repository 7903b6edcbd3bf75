"""Files read like the program reads them, and folders that are saved and loaded."""

from __future__ import annotations

import random
import re
import subprocess
import unittest

from typing import Mapping

from pespbench import Activity, Bench, FileFault, Labels, Names, Window, files
from pespbench.labels import EventLabel
from tests.common import EXAMPLES, PROGRAM, SLOWER, Case, over_both

ACTIVITIES = b"activity; from; to; lower; upper; weight\n1; 1; 2; 3; 5; 2.0\n\n# late\n2; 2; 1; 4; 6; 1\n3;1;2;-3;+5;0\n"
TIMES = b'event,time\r\n1,0\r\n"2",3\r\n  \r\n7,-12\r\n'
PIECES = [b";", b",", b'"', b"\n", b"\r", b" ", b"#", b"-", b"+", b"0", b"9", b"x", b"A", b"\0", b"\xef\xbb\xbf", b"\xff", b".", b".0"]


class Reading(Case):
    """The readers over plain, damaged and odd files."""

    def test_examples(self) -> None:
        folder = EXAMPLES / "from-a-spreadsheet"
        self.assertEqual(files.read_times(folder / "times"), {1: 0, 2: 3})
        for folder in sorted(EXAMPLES.iterdir()):
            if (folder / "activities").exists() and not (folder / "error").exists():
                with Bench.open(folder / "activities", program=PROGRAM) as bench:
                    self.assertEqual(dict(sorted(files.read_activities(folder / "activities").items())), bench.network.activities)

    def told(self, words: "list[str]", kind: str) -> str:
        """The program's fault for a file: the record and the text, or nothing."""
        done = subprocess.run([PROGRAM, "--check", *words], stdin=subprocess.DEVNULL, capture_output=True)
        found = re.fullmatch(rf"pespbench: {kind} file, (record .*)\n", done.stderr.decode())
        return found[1] if found else ""

    def same_fault(self, kind: str, text: bytes) -> None:
        path = self.folder / kind
        path.write_bytes(text)
        words = [str(path)] if kind == "activities" else ["--times", str(path)]
        wanted = self.told(words, kind)
        try:
            came = ""
            read: Mapping[int, object] = files.read_times(path) if kind == "times" else {}
            read = files.read_activities(path) if kind == "activities" else read
        except FileFault as fault:
            came = f"record {fault.record}: {fault.text}"
        self.assertEqual(came, wanted, text)
        if not came and kind == "activities":
            with Bench.open(path, program=PROGRAM) as bench:
                self.assertEqual(dict(sorted(read.items())), bench.network.activities, text)

    def test_damaged_files(self) -> None:
        """The fault of a damaged file, or otherwise its contents, is the same as by the program."""
        draw = random.Random(1838)
        for kind, whole in [("activities", ACTIVITIES), ("times", TIMES)]:
            self.same_fault(kind, whole)
            for _ in range(120 // SLOWER):
                text = whole
                for _ in range(draw.randint(1, 2)):
                    place = draw.randrange(len(text) + 1)
                    text = text[:place] + draw.choice(PIECES) + text[draw.choice([place, place + 1, place + 9]) :]
                self.same_fault(kind, text)

    def test_odd_files(self) -> None:
        table = [b"", b"\xef\xbb\xbf1; 0\n", b'1; "0"\n', b'"1"0;5\n', b"1; 0;\n1; 0;;\n", b"1; " + b"9" * 200_000, b"l; 0\n1; 0\n"]
        table += [b"1;0\r2;0\r\n\r3;0", b'# a;"b\n1; 0\n"\n2; 0\n', b"A\nB\n", b"1; 0.0\n", b";\n", b'""\n1;x\n', b"1;0\0\n", b"_id;0\n"]
        for text in table:
            self.same_fault("times", text)

    def test_what_cannot_be_read(self) -> None:
        self.assertRaises(OSError, files.read_times, self.folder / "none")
        path = self.folder / "windows"
        path.write_text("event; first; length\n1; 0; 3\n1; 2; 2\n")
        with self.assertRaises(FileFault) as told:
            files.read_windows(path)
        self.assertEqual(str(told.exception), f"{path}, record 3: event is repeated")


@over_both
class Folders(Case):
    """`save` and `load`."""

    def same(self, one: Bench, other: Bench) -> None:
        for what in ("dump", "domains"):
            self.assertEqual(getattr(one, what)(), getattr(other, what)())
        self.assertEqual((one.times, one.labels, one.period), (other.times, other.labels, other.period))
        lines = ["tensions", "violations", "cost", "try 500", "optimum"]
        self.assertEqual([str(each) for each in one.many(lines)], [str(each) for each in other.many(lines)])

    def test_all_there_is(self) -> None:
        bench = self.two_trains()
        bench.labels = Labels({1: EventLabel("M", 'the "old" town', "Ashford; west", "départ")}, {2: "run"})
        bench.many(["add event 7", "fix 7 3", "add event 8", "window 8 2 10", "add event 9", "window 1 9 3", "fix 2 5"])
        bench.set_times({1: 0, 2: 3, 7: 3, 9: 1})
        bench.save(self.folder / "a" / "b")
        with Bench.load(self.folder / "a" / "b", **self.how) as other:
            self.assertEqual(other.network.windows, {1: Window(9, 3), 2: Window(5), 7: Window(3), 8: Window(2, 10), 9: None})
            self.same(bench, other)
            self.assertEqual(other.journal, [])

    def test_read_by_a_check(self) -> None:
        bench = self.two_trains(times=EXAMPLES / "two-trains/times", fixed=EXAMPLES / "fixed-event/fixed")
        bench.many(["add event 7", "fix 7 3"])
        bench.save(self.folder)
        words = [PROGRAM, "--check", "--period", (self.folder / "period").read_text().split()[1]]
        words += ["--fixed", "fixed", "--times", "times", "activities"]
        done = subprocess.run(words, cwd=self.folder, capture_output=True)
        wanted = (EXAMPLES / "fixed-event/expected").read_bytes()
        self.assertEqual((done.stdout, done.stderr), (wanted, b""))
        self.assertFalse((self.folder / "labels").exists())

    def test_saved_again(self) -> None:
        """Nothing of the old network remains, and nothing is incomplete."""
        bench = self.two_trains()
        bench.many(["window 1 2 3", "fix 2 1", "time 1 0", "add event 9"])
        bench.save(self.folder)
        bench.many(["unfix 1", "unfix 2", "untime 1", "drop event 9"])
        bench.save(self.folder)
        with Bench.load(self.folder, **self.how) as other:
            self.same(bench, other)
        wanted = {"period", "activities", "fixed", "windows", "events", "times"}
        self.assertEqual({path.name for path in self.folder.iterdir()}, wanted)

    def test_drawn(self) -> None:
        for seed in range(8):
            with self.drawn(seed, 8, 12, period=20, room=3) as bench:
                draw = random.Random(seed)
                bench.many(f"window {draw.randrange(8)} {draw.randrange(20)} {draw.randint(9, 20)}" for _ in range(2))
                bench.many(f"time {draw.randrange(8)} {draw.randrange(20)}" for _ in range(20))
                bench.save(self.folder / str(seed))
                with Bench.load(self.folder / str(seed), **self.how) as other:
                    self.same(bench, other)

    def test_what_is_no_saved_folder(self) -> None:
        self.assertRaises(OSError, Bench.load, self.folder / "none", **self.how)
        self.two_trains().save(self.folder)
        for name, text in {"period": "10\n20\n", "windows": "1; 0; 11\n", "events": "1\n", "times": "x; y; z\n1\n"}.items():
            path = self.folder / name
            before = path.read_text()
            path.write_text(text)
            with self.assertRaises(Exception) as told:
                Bench.load(self.folder, **self.how)
            self.assertIn(type(told.exception).__name__, ("FileFault", "Ended"))
            path.write_text(before)
        (self.folder / "period").unlink()
        self.assertRaises(OSError, Bench.load, self.folder, **self.how)


class LabelFiles(Case):
    """The file of labels."""

    def read(self, text: str) -> Labels:
        path = self.folder / "labels"
        path.write_bytes(text.encode())
        return Labels.read(path)

    def test_both_parts(self) -> None:
        labels = self.read("\ufeff# of 2026\nevent; line; to; station; kind\n1; M; Cranley; Ashford; departure\n2;;;Dale\n\nactivity;kind;;;\n7;run;;;\n8\n")
        self.assertEqual(labels.events, {1: EventLabel("M", "Cranley", "Ashford", "departure"), 2: EventLabel(station="Dale")})
        self.assertEqual(labels.activities, {7: "run", 8: ""})
        self.assertEqual([labels.kind(7), labels.kind(8), labels.kind(9)], ["run", "", ""])
        activities = {7: Activity(7, 1, 2, 3, 5), 8: Activity(8, 1, 3, 3, 5)}
        names = Names(labels, activities)
        self.assertEqual([names.event(1), names.event(3)], ["M to Cranley leaves Ashford", "event 3"])
        self.assertEqual(names.activity(8), "activity 8 from M to Cranley leaves Ashford to event 3")
        labels.write(self.folder / "other")
        self.assertEqual(Labels.read(self.folder / "other"), labels)
        named = self.read("activity; kind\n1; run\ncost; passenger minutes\n")
        self.assertEqual((named.activities, named.cost), ({1: "run"}, "passenger minutes"))
        self.assertEqual(self.read(named.text()), named)

    def test_faults(self) -> None:
        table = {
            "1; M\n": "record 1: there is no header",
            "event\n1\n1\n": "record 3: event is repeated",
            "activity\n1; a\n1; b\n": "record 3: activity is repeated",
            "event\nx; a\n": "record 2: field 1 is not a number",
            "event\n1000000000\n": "record 2: field 1 is out of range",
            "activity\n1; run; fast\n": "record 2: wrong number of fields",
        }
        for text, wanted in table.items():
            with self.assertRaises(FileFault) as told:
                self.read(text)
            self.assertIn(wanted, str(told.exception))
        self.assertRaises(OSError, Labels.read, self.folder / "none")

    def test_opened_with_labels(self) -> None:
        path = self.folder / "labels"
        path.write_text("activity; kind\n1; run\n")
        self.assertEqual(self.two_trains(labels=path).labels.kind(1), "run")
        self.assertEqual(self.two_trains(labels=Labels(activities={2: "turn"})).labels.kind(2), "turn")


if __name__ == "__main__":
    unittest.main()
