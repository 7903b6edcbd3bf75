"""How files are written: whole or not at all, through no link, and directly to devices and pipes."""

from __future__ import annotations

import os
import stat
import subprocess
import sys
import threading
import unittest
from contextlib import contextmanager
from itertools import count
from pathlib import Path
from typing import Any, Dict, Iterator
from unittest import mock

from pespbench import Bench, EventLabel, Labels
from pespbench.__main__ import main
from pespbench.places import places_text, read_places
from tests.common import EXAMPLES, PROGRAM, TOP, Case

TIMES = str(EXAMPLES / "two-trains/times")
WRITTEN = "# event_index; time\n1; 0\n2; 3\n"


class Single(Case):
    """One file, by the subcommand that writes the least: `to-lintim`."""

    def write(self, path: Path) -> int:
        """The exit status of a command line that writes the example's times to a path."""
        return main(["to-lintim", TIMES, str(path)])

    def test_pipe_stays_a_pipe(self) -> None:
        path = self.folder / "pipe"
        os.mkfifo(path)
        came = []
        reader = threading.Thread(target=lambda: came.append(path.read_text()), daemon=True)
        reader.start()
        self.assertEqual(self.write(path), 0)
        reader.join(5)
        self.assertEqual(came, [WRITTEN])
        self.assertTrue(stat.S_ISFIFO(os.lstat(path).st_mode))

    @unittest.skipUnless(os.path.exists("/proc/self/fd/1"), "standard output has no name")
    def test_standard_output_by_its_name(self) -> None:
        """A link such as /dev/stdout leads to a pipe or to a file, and is unchanged afterwards."""
        path = self.folder / "stdout"
        path.symlink_to("/proc/self/fd/1")
        environment = {**os.environ, "PYTHONPATH": str(TOP / "python")}
        words = [sys.executable, "-m", "pespbench", "to-lintim", TIMES, str(path)]
        self.assertEqual(subprocess.run(words, env=environment, stdout=subprocess.PIPE).stdout.decode(), WRITTEN)
        with open(self.folder / "told", "wb") as told:
            subprocess.run(words, env=environment, stdout=told)
        self.assertEqual((self.folder / "told").read_text(), WRITTEN)
        self.assertEqual(os.readlink(path), "/proc/self/fd/1")

    @unittest.skipUnless(os.path.exists("/dev/full"), "there is no full device")
    def test_full_device(self) -> None:
        path = self.folder / "full"
        path.symlink_to("/dev/full")
        with mock.patch("sys.stderr"):
            self.assertEqual(self.write(path), 1)
        self.assertEqual(os.readlink(path), "/dev/full")
        self.assertTrue(stat.S_ISCHR(os.stat("/dev/full").st_mode))

    def test_no_link_is_followed_beside_it(self) -> None:
        victim, path = self.folder / "victim", self.folder / "out" / "times"
        victim.write_text("mine\n")
        path.parent.mkdir()
        (path.parent / "times.part").symlink_to(victim)
        self.assertEqual(self.write(path), 0)
        self.assertEqual((victim.read_text(), path.read_text()), ("mine\n", WRITTEN))
        self.assertEqual(sorted(os.listdir(path.parent)), ["times", "times.part"])

    def test_permissions_stay(self) -> None:
        path = self.folder / "times"
        path.write_text("")
        path.chmod(0o640)
        self.assertEqual(self.write(path), 0)
        self.assertEqual(stat.S_IMODE(path.stat().st_mode), 0o640)


class Sets(Case):
    """The files of a folder."""

    def contents(self, folder: Path) -> Dict[str, str]:
        """The contents of each file of a folder."""
        return {path.name: path.read_text() for path in folder.iterdir() if path.is_file()}

    def saved(self) -> Bench:
        """A bench that was saved in a folder `network`, and then changed."""
        bench = self.two_trains(times=TIMES)
        bench.labels = Labels({1: EventLabel("M", "Dale", "Ashford", "departure")})
        bench.places = {"Ashford": (1.0, 2.5)}
        bench.save(self.folder / "network")
        bench.many(["fix 1 3", "time 1 3", "add event 9", "weight 1 7"])
        return bench

    def test_names_of_another_network_go(self) -> None:
        self.saved()
        self.assertTrue({"labels", "places"} <= set(os.listdir(self.folder / "network")))
        (self.folder / "network/notes").write_text("kept\n")
        self.two_trains().save(self.folder / "network")
        wanted = {"period", "activities", "fixed", "windows", "events", "times", "notes"}
        self.assertEqual(set(os.listdir(self.folder / "network")), wanted)

    def test_places_are_kept(self) -> None:
        bench = self.two_trains()
        names = ["Ashford", "St. Dale; north", "#3", 'the "old" town', "a,b", "two\nlines"]
        bench.places = {name: (place, -0.1 * place) for place, name in enumerate(names)}
        bench.save(self.folder)
        with Bench.load(self.folder, program=PROGRAM) as other:
            self.assertEqual(other.places, bench.places)
            other.save(self.folder / "again")
        self.assertEqual(self.contents(self.folder / "again"), self.contents(self.folder))

    def test_comments_of_places(self) -> None:
        path = self.folder / "places"
        path.write_text('station; x; y\n# Ashford; 1; 2\n"#3"; 1; 2\n  # late\n')
        self.assertEqual(read_places(path), {"#3": (1.0, 2.0)})
        path.write_text(places_text({"#": (1e300, 0.25)}))
        self.assertEqual(read_places(path), {"#": (1e300, 0.25)})

    def test_a_folder_in_the_way(self) -> None:
        bench = self.saved()
        before = self.contents(self.folder / "network")
        (self.folder / "network/times").unlink()
        (self.folder / "network/times").mkdir()
        self.assertRaises(OSError, bench.save, self.folder / "network")
        del before["times"]
        self.assertEqual(self.contents(self.folder / "network"), before)

    def test_a_failure_at_each_step(self) -> None:
        """Whichever call fails, all eight files are the old ones, and nothing is beside them."""
        bench = self.saved()
        before = self.contents(self.folder / "network")
        self.assertEqual(len(before), 8)
        for name in ("open", "fdopen", "fsync", "replace"):
            for place in range(8):
                with self.subTest(call=name, place=place):
                    with failing(name, place, OSError(5, "it fails")):
                        self.assertRaises(OSError, bench.save, self.folder / "network")
                    self.assertEqual(self.contents(self.folder / "network"), before)

    def test_an_interrupt(self) -> None:
        bench = self.saved()
        before = self.contents(self.folder / "network")
        for place in range(6):
            with failing("replace", place, KeyboardInterrupt()):
                self.assertRaises(KeyboardInterrupt, bench.save, self.folder / "network")
            self.assertEqual(self.contents(self.folder / "network"), before)

    def test_links_give_way(self) -> None:
        bench = self.saved()
        victim = self.folder / "victim"
        victim.write_text("mine\n")
        (self.folder / "network/times").unlink()
        (self.folder / "network/times").symlink_to(victim)
        (self.folder / "network/activities.part").symlink_to(victim)
        bench.save(self.folder / "network")
        self.assertEqual(victim.read_text(), "mine\n")
        self.assertEqual((self.folder / "network/times").read_text(), "event; time\n1; 3\n2; 3\n")
        self.assertFalse((self.folder / "network/times").is_symlink())


@contextmanager
def failing(name: str, place: int, fault: BaseException) -> Iterator[None]:
    """One call of a function of `os` fails, after this many others."""
    usual, calls = getattr(os, name), count()

    def call(*words: Any, **named: Any) -> Any:
        if next(calls) == place:
            raise fault
        return usual(*words, **named)

    with mock.patch.object(os, name, call):
        yield


if __name__ == "__main__":
    unittest.main()
