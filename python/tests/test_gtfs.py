"""GTFS feeds: their periodic trains as folders, and invalid feeds."""

from __future__ import annotations

import contextlib
import io
import unittest
import zipfile
from pathlib import Path
from typing import Dict, Tuple

from pespbench import Activity, Bench, EventLabel, FileFault
from pespbench.__main__ import main
from pespbench.gtfs import read_feed
from tests.common import PROGRAM, Case

STOPS = "stop_id,stop_name,stop_lat,stop_lon,parent_station\nA,Ashford,60,10,\nB,Benton,60,11,\nB1,Benton track 1,60,11,B\nC,Cranley,60,12,\nD,Benton,61,,\n"
ROUTES = "route_id,route_short_name,route_long_name\nm,M,Main line\nb,,Branch\n"
TRIPS = (
    "route_id,service_id,trip_id,direction_id\nm,week,m7,0\nm,week,m8,0\nm,sunday,s8,0\nm,week,back,1\nm,week,back9,1\nm,week,odd,0\nb,week,b,\n"
    "m,sunday,s9,0\n"
)
TIMES = """\
trip_id,arrival_time,departure_time,stop_id,stop_sequence
m7,7:05:00,7:05:00,A,1
m7,7:30:59,7:32:00,B1,5
m7,7:50:00,7:50:00,C,9
m8,08:50:00,08:50:00,C,9
m8,08:05:00,08:05:00,A,1
m8,08:30:00,08:32:00,B1,5
s8,8:05:00,8:05:00,A,1
s8,8:30:00,8:32:00,B1,2
s8,8:50:00,8:50:00,C,3
s9,8:10:00,8:10:00,A,1
s9,8:35:00,8:37:00,B,2
back,8:10:00,8:10:00,C,1
back,,,B,2
back,8:55:00,8:55:00,A,3
back9,9:10:00,9:10:00,C,1
back9,9:55:00,9:55:00,A,3
odd,8:20:00,8:20:00,A,1
odd,8:44:00,8:44:00,B,2
b,0:00:00,0:00:00,B,1
b,0:15:00,0:15:00,D,2
"""
FREQUENCIES = "trip_id,start_time,end_time,headway_secs\nb,6:40:00,10:00:00,1800\n"
CALENDAR = "service_id,monday,tuesday,wednesday,thursday,friday,saturday,sunday,start_date,end_date\nweek,1,1,1,1,1,0,0,20260101,20261231\n"
DATES = "service_id,date,exception_type\nweek,20261225,2\nsunday,20261206,1\n"
FEED = {"stops": STOPS, "routes": ROUTES, "trips": TRIPS, "stop_times": TIMES, "frequencies": FREQUENCIES, "calendar": CALENDAR, "calendar_dates": DATES}


class Feeds(Case):
    """A main line each hour in both directions, a branch each half hour, and trips that do not repeat."""

    def feed(self, **instead: str) -> Path:
        """A folder with the feed's files."""
        folder = self.folder / "feed"
        folder.mkdir(exist_ok=True)
        for name, text in {**FEED, **instead}.items():
            (folder / f"{name}.txt").write_text(text)
        return folder

    def run_words(self, *words: str) -> Tuple[int, str]:
        """The status of the subcommand, and its standard error."""
        with contextlib.redirect_stderr(io.StringIO()) as told:
            return main(["from-gtfs", *words]), told.getvalue()

    def test_one_period(self) -> None:
        folder = str(self.folder / "network")
        self.assertEqual(self.run_words(str(self.feed()), folder), (0, "4 trains come each 60 minutes; 2 trips do not, and are left out\n"))
        with Bench.load(folder, program=PROGRAM) as bench:
            self.assertEqual((len(bench.violations()), bench.cost()), (0, 0))
            trains: Dict[Tuple[str, str], int] = {(each.line, each.to): bench.times[event] for event, each in reversed(bench.labels.events.items())}
            self.assertEqual(trains, {("Branch", "Benton (D)"): 10, ("M", "Cranley"): 5, ("M", "Ashford"): 10})
            self.assertEqual(bench.labels.events[6], EventLabel("M", "Cranley", "Benton (B)", "arrival"))
            self.assertEqual([bench.network.activities[number] for number in (3, 4)], [Activity(3, 5, 6, 25, 26, 1), Activity(4, 6, 7, 2, 3, 1)])
            self.assertEqual([bench.labels.kind(number) for number in (3, 4, 5)], ["run", "dwell", "run"])
            self.assertEqual(bench.places, {"Ashford": (5.0, 60.0), "Benton (B)": (5.5, 60.0), "Cranley": (6.0, 60.0)})

    def test_archive_day_and_period(self) -> None:
        archive = self.folder / "feed.zip"
        with zipfile.ZipFile(archive, "w") as written:
            for name, text in FEED.items():
                written.writestr(f"{name}.txt", f"\ufeff{text}")
        folder = str(self.folder / "network")
        told = {"2026-12-01": (0, "4 trains come each 60 minutes; 1 trips"), "2026-12-25": (1, "0 trains"), "2026-12-06": (1, "0 trains come each 60 minutes; 2 trips")}
        for day, (status, text) in told.items():
            came = self.run_words(str(archive), folder, f"--date={day}", "--more=0")
            self.assertEqual((came[0], came[1][: len(text)]), (status, text), day)
        self.assertEqual(self.run_words(str(archive), folder, "--period=30", "--from=9:30")[1][:32], "1 trains come each 30 minutes; 0")

    def test_faults(self) -> None:
        wrong = {"stops": STOPS.replace("stop_name", "name"), "stop_times": TIMES.replace("7:30:59", "7.30"), "frequencies": FREQUENCIES.replace("1800", "30")}
        for name, text in {**wrong, "trips": "", "routes": "x" * 200_000}.items():
            with self.subTest(name=name), self.assertRaisesRegex(FileFault, f"{name}.txt"):
                read_feed(self.feed(**{name: text}))
        self.assertRaisesRegex(FileFault, "there is no stop 'B'", read_feed, self.feed(stops=STOPS.replace("\nB,", "\nE,").replace(",B\n", ",A\n")))
        (self.folder / "feed/trips.txt").unlink()
        self.assertRaisesRegex(FileFault, "there is no trips.txt", read_feed, self.folder / "feed")
        self.assertRaisesRegex(FileFault, "routes.txt, record 1: it cannot be cut into fields", read_feed, self.feed(routes="x" * 200_000))
        with zipfile.ZipFile(self.folder / "damaged", "w") as written:
            for name, text in FEED.items():
                written.writestr(f"{name}.txt", text)
        data = (self.folder / "damaged").read_bytes()
        (self.folder / "damaged").write_bytes(data.replace(b"Cranley", b"Cranlex", 1))
        self.assertRaisesRegex(FileFault, "damaged: [a-z_]+.txt in it is damaged, or packed", read_feed, self.folder / "damaged")
        (self.folder / "file").write_text("x")
        self.assertRaisesRegex(FileFault, "neither a folder nor a zip archive", read_feed, self.folder / "file")
        self.assertRaises(OSError, read_feed, self.folder / "missing")

    def test_words(self) -> None:
        for word in ("--from=25", "--from=8", "--date=1.12.", "--period=1", "--more=-1"):
            with self.assertRaises(SystemExit) as caught:
                self.run_words(str(self.feed()), str(self.folder / "network"), word)
            self.assertEqual(caught.exception.code, 2)


if __name__ == "__main__":
    unittest.main()
