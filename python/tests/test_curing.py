"""The cause and the remedy of a fault in a file of another form."""

from __future__ import annotations

import os
import threading
import unittest
from typing import Any, Callable, Dict

from pespbench import Bench, Ended, FileFault, Labels, files
from pespbench.curing import DECIMAL, TABS, UTF_16
from pespbench.places import read_places
from tests.common import Case, over_both

ROWS = "activity; from; to; lower; upper; weight\n1; 1; 2; 3; 5; 2\n2; 2; 1; 4; 6; 1\n"
# Files of activities, and the remedy of each.
TABLE = [
    (ROWS.replace("; ", "\t").encode(), TABS),
    (ROWS.split("\n", 1)[1].replace("; ", "\t").encode(), TABS),
    (ROWS.replace("; ", "\t").replace("2\n", "2,5\n").encode(), TABS),
    (ROWS.encode("utf-16"), UTF_16),
    (ROWS.encode("utf-16-le"), UTF_16),
    (ROWS.encode("utf-16-be"), UTF_16),
    (ROWS.replace("2\n", "2,0\n").encode(), DECIMAL),
    (ROWS.replace("; ", ",").replace("2\n", "2,0\n").encode(), DECIMAL),
    (ROWS.replace("; 5", "; 1").encode(), ""),
    (ROWS.replace("1; 1; 2", "1; drive; 1; 2").replace("; ", ",").encode(), ""),
    (ROWS.replace("2; 2", "2;; 2").encode(), ""),
    (ROWS.replace("3", "x").encode(), ""),
]


@over_both
class Cures(Case):
    """Each fault with its remedy, from the program and from the package's own readers."""

    def raised(self, path: "os.PathLike[str]") -> Ended:
        """The end of opening a file of activities."""
        with self.assertRaises(Ended) as told:
            Bench.open(path, **self.how).close()
        return told.exception

    def test_activities(self) -> None:
        path = self.folder / "activities"
        for text, cure in TABLE:
            path.write_bytes(text)
            ended = self.raised(path)
            with self.assertRaises(FileFault) as told:
                files.read_activities(path)
            with self.subTest(text=text):
                self.assertEqual((ended.cure, told.exception.cure), (cure, cure))
                self.assertTrue(ended.text.startswith("pespbench: activities file, record "))
                named = ended.text.replace("activities file", f"activities file {path}")
                self.assertEqual((str(ended), ended.path), (f"{named}. {cure}" if cure else named, str(path)))
                self.assertTrue(str(told.exception).endswith(cure or told.exception.text))

    def test_times_and_fixed_times(self) -> None:
        activities, path = self.folder / "activities", self.folder / "times"
        activities.write_text(ROWS)
        table = {b"event\ttime\n1\t0\n": TABS, b"1; 0,5\n": DECIMAL, b"1,0,5\n": DECIMAL, "1; 0\n".encode("utf-16"): UTF_16, b"1; x\n": ""}
        for text, cure in table.items():
            path.write_bytes(text)
            for option in ("times", "fixed"):
                given: Dict[str, Any] = {**self.how, option: path}
                with self.subTest(text=text, option=option), self.assertRaises(Ended) as told:
                    Bench.open(activities, **given).close()
                self.assertEqual(told.exception.cure, cure)

    def test_labels_and_places(self) -> None:
        path = self.folder / "file"
        table = {"event\tline\n1\tM\n": TABS, "event;line\nx;M\n": ""}
        for text, cure in table.items():
            path.write_text(text)
            self.assertEqual(self.fault(lambda: Labels.read(path)).cure, cure)
        path.write_bytes("station; x; y\nDale; 1; 2\n".encode("utf-16"))
        self.assertEqual(self.fault(lambda: read_places(path)).cure, UTF_16)
        for text, cure in {"Dale; 1,5; 2\n": DECIMAL, "Dale\t1\t2\n": TABS, "Dale; one; 2\n": ""}.items():
            path.write_text(text)
            self.assertEqual(self.fault(lambda: read_places(path)).cure, cure)

    def test_in_each_others_place(self) -> None:
        """A file of another kind is reported as that, by its header or by its first row."""
        times, labels, places = "event; time\n1; 0\n", "event; line; to; station; kind\n1; M\n", "station; x; y\nDale; 1; 2\n"
        table = {"activities": [ROWS, ROWS.split("\n", 1)[1], ROWS.replace("; ", ",")], "times": [times, "1; 0\n", "-1,0\n"], "labels": [labels], "places": [places]}
        path, activities = self.folder / "file", self.folder / "activities"
        activities.write_text(ROWS)
        for found, texts in table.items():
            for text in texts:
                path.write_text(text)
                for wanted in {"activities", "times", "fixed"} - {found, "fixed" if found == "times" else ""}:
                    given: Dict[str, Any] = {**self.how, "activities": activities, wanted: path}
                    with self.subTest(text=text, wanted=wanted), self.assertRaises(Ended) as told:
                        Bench.open(**given).close()
                    kind = "activities" if wanted == "activities" else "times"
                    self.assertEqual(told.exception.cure, f"It is a file of {found}, and not of {kind}. Give each file in its own place.")
                if found not in ("labels", "places"):
                    self.assertIn(f"a file of {found}, and not of labels", self.fault(lambda: Labels.read(path)).cure)
                    self.assertIn(f"a file of {found}, and not of places", self.fault(lambda: read_places(path)).cure)

    def test_what_cannot_be_read(self) -> None:
        """The file is named, with its fault."""
        (self.folder / "activities").write_text(ROWS)
        for path, cure in {self.folder / "none": "There is no such file.", self.folder: "It is a folder."}.items():
            for option in ("times", "fixed"):
                given: Dict[str, Any] = {**self.how, option: path}
                with self.assertRaises(Ended) as told:
                    Bench.open(self.folder / "activities", **given).close()
                self.assertEqual(str(told.exception), f"pespbench: {option} file {path} cannot be read. {cure}")

    def fault(self, read: Callable[[], object]) -> FileFault:
        """The exception of reading it."""
        with self.assertRaises(FileFault) as told:
            read()
        return told.exception

    def test_pipe_is_read_once(self) -> None:
        """A file that can only be read once has no remedy, and is not waited for."""
        path = self.folder / "pipe"
        os.mkfifo(path)
        writer = threading.Thread(target=lambda: path.write_text("1\t2\n"), daemon=True)
        writer.start()
        self.assertEqual(self.raised(path).cure, "")


if __name__ == "__main__":
    unittest.main()
