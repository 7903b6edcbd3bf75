"""The library in process: where it is searched for, and what only it promises."""

from __future__ import annotations

import ctypes.util
import os
import shutil
import signal
import subprocess
import sys
import time
import unittest
from pathlib import Path
from typing import Any, Dict, List, Tuple, Union
from unittest import mock

from pespbench import Bench, Ended, Engine, FileFault, NoLibrary, Optimum, PespbenchError, Stopped, variants
from pespbench.library import find_library, loaded
from tests.common import LIBRARY, LONG, OVER_LIBRARY, OVER_PROGRAM, TOP, Case, drawn_script, needs_library, wait_for_work, worked


class Finding(Case):
    """Where it is searched for."""

    def setUp(self) -> None:
        super().setUp()
        self.known = mock.patch("ctypes.util.find_library", return_value=None)
        self.known.start()
        self.addCleanup(self.known.stop)
        surroundings = mock.patch.dict(os.environ, {"PESPBENCH_LIB": "", "PESPBENCH": "", "PATH": str(self.folder)})
        surroundings.start()
        self.addCleanup(surroundings.stop)

    def file(self, name: str) -> Path:
        path = self.folder / name
        path.parent.mkdir(parents=True, exist_ok=True)
        path.touch(0o755)
        return path

    def test_named(self) -> None:
        """A named one is used, and nothing else if it is missing."""
        beside, program = self.file("prefix/lib/libpespbench.so"), self.file("prefix/bin/pespbench")
        other, own = self.file("other/libpespbench.so"), self.file("own.so")
        for named in (other, other.parent):
            self.assertEqual(find_library(named, program), str(other))
            with mock.patch.dict(os.environ, {"PESPBENCH_LIB": str(named)}):
                self.assertEqual(find_library(None, program), str(other))
                self.assertEqual(find_library(own), str(own))
        for missing in (self.folder / "none.so", self.folder):
            with mock.patch.dict(os.environ, {"PESPBENCH_LIB": str(missing)}), self.assertRaises(NoLibrary) as told:
                find_library(None, program)
            self.assertIn(f"there is no library {self.folder}", str(told.exception))
            with self.assertRaises(NoLibrary):
                Bench.open(None, engine="library", library=missing)
        self.assertEqual(find_library(None, program), str(beside))

    def test_beside(self) -> None:
        """Where tools/install puts it, also if the program is a link to the installed one."""
        library, program = self.file("prefix/lib/libpespbench.so"), self.file("prefix/bin/pespbench")
        link = self.folder / "pespbench"
        self.assertRaises(NoLibrary, find_library)
        link.symlink_to(program)
        self.assertEqual(find_library(), str(library))
        with mock.patch.dict(os.environ, {"PESPBENCH": str(program), "PATH": ""}):
            self.assertEqual(find_library(), str(library))
        with mock.patch("pespbench.library.__file__", str(self.folder / "prefix/share/pespbench/python/pespbench/library.py")):
            link.unlink()
            self.assertEqual(find_library(), str(library))

    def test_known_to_the_system(self) -> None:
        with self.assertRaises(NoLibrary) as told:
            find_library()
        self.assertIn("tools/library and tools/install make it; name it by library=, or by PESPBENCH_LIB", str(told.exception))
        self.assertIsInstance(told.exception, PespbenchError)
        with mock.patch("ctypes.util.find_library", return_value="libpespbench.so"):
            self.assertEqual(find_library(), "libpespbench.so")

    def test_no_library_of_this(self) -> None:
        text = self.folder / "libpespbench.so"
        text.write_text("not a library\n")
        with self.assertRaises(NoLibrary) as told:
            Bench.open(None, engine="library", library=text)
        self.assertIn(f"{text} is no library that can be loaded", str(told.exception))
        self.known.stop()
        path = ctypes.util.find_library("c")
        self.known.start()
        if path is not None:
            with self.assertRaises(NoLibrary) as told:
                loaded(path)
            self.assertIn("it has no pesp_open", str(told.exception))

    def test_wrong_words(self) -> None:
        self.assertRaises(ValueError, Bench.open, None, engine="libraries")
        self.assertRaises(ValueError, Bench.open, None, library=self.folder)

    def test_without_ctypes(self) -> None:
        with mock.patch("importlib.util.find_spec", return_value=None), self.assertRaises(NoLibrary) as told:
            Bench.open(None, engine="library")
        self.assertEqual(str(told.exception), "this Python has no ctypes, by which the library is called")
        words = [sys.executable, "-c", "import pespbench, sys; print('ctypes' in sys.modules)"]
        done = subprocess.run(words, env={**os.environ, "PYTHONPATH": str(TOP / "python")}, stdout=subprocess.PIPE)
        self.assertEqual(done.stdout, b"False\n")


# A library of two events whose searches record their questions.
STAND_IN = """
#include <stdbool.h>
#include <stddef.h>
#include <stdint.h>
#include <string.h>

struct told { uint64_t length, place; uint32_t status, reason, field; };
struct found { uint64_t cost, lower_bound; uint32_t state, goes_on; };
struct session { void *at; bool is_open; };
static const char dump[] = "# period 10 lines 2\\nadd event 3\\nadd event 5\\n", stopped[] = "stopped 9 2\\n3 1\\n5 4\\n";

void pesp_open(uint16_t period, const char *a, size_t b, const char *c, size_t d, const char *e, size_t f, struct session *session,
               struct told *told) { session->is_open = true; told->status = 0; }
void pesp_ask(struct session *session, const char *line, size_t length, char *out, size_t room, struct told *told) {
    const char *reply = line[0] == 'd' ? dump : line[0] == 't' ? stopped : "refused 11 event 3 has no time\\n";
    told->status = 0;
    told->length = strlen(reply);
    memcpy(out, reply, told->length);
}
void pesp_cost(struct session *session, uint64_t *cost, struct told *told) { told->status = 13; }
void pesp_close(struct session *session) { session->is_open = false; }
#ifdef NEWER
void pesp_search(struct session *session, uint64_t nodes, uint16_t *out, size_t length, struct found *found, struct told *told) {
    for (size_t place = 0; place < length; place++) out[place] = place + 7;
    found->cost = nodes + 1;
    found->lower_bound = nodes;
    found->state = nodes > UINT32_MAX ? 2 : 1;
    found->goes_on = nodes == 1;
    told->status = 0;
    told->length = length;
}
#endif
"""


@unittest.skipUnless(shutil.which("gcc"), "there is no gcc to compile a library with")
class Compiled(Case):
    """A library in C that stands in for the one in process."""

    def library(self, *options: str) -> Path:
        """The library, compiled."""
        source, library = self.folder / "library.c", self.folder / "library.so"
        source.write_text(STAND_IN)
        subprocess.run(["gcc", "-shared", "-fPIC", *options, "-o", library, source], check=True)
        return library

    def test_with_the_call_for_searches(self) -> None:
        """Numbers of 64 bits go in and come out; a search returns cost, bound and times, and whether the next one resumes it."""
        with Bench.open(None, period=10, engine="library", library=self.library("-DNEWER")) as bench:
            first, *_, last = bench.search(60, nodes=2**31)
            going = [bench._session.searched(nodes, time.monotonic() + LONG).goes_on for nodes in (1, 2, 2**32)]
        self.assertEqual((first.found, first.lower_bound), (Stopped(2**31 + 1, {3: 7, 5: 8}), 2**31))
        self.assertEqual((last.found, last.is_ended, last.lower_bound), (Optimum(2**32 + 1, {3: 7, 5: 8}), True, 2**32 + 1))
        self.assertEqual(going, [True, False, False])

    def test_without_it(self) -> None:
        """An older library opens, and searches by lines."""
        with Bench.open(None, period=10, engine="library", library=self.library()) as bench:
            first = next(bench.search(60))
        self.assertEqual((first.found, first.lower_bound), (Stopped(9, {3: 1, 5: 4}), None))


# An endless search that is interrupted, followed by the end of the process.
BROKEN_OFF = """
import sys, threading, time
from pespbench import Bench

with Bench.from_script(open(sys.argv[2]).read(), engine="library", library=sys.argv[1]) as bench:
    bench.time(3, 7)
    before = bench.dump(), bench.journal, bench.times
    print("searching", flush=True)
    try:
        bench.optimum()
    except KeyboardInterrupt:
        assert (bench.dump(), bench.journal, bench.times) == before
        assert [thread.name for thread in threading.enumerate()][1:] == ["pespbench search"]
        print("went on", flush=True)
"""


@needs_library
class Library(Case):
    """Over the library itself."""

    def test_ctrl_c(self) -> None:
        """Ctrl-C interrupts a search that takes minutes, the bench continues, and the process does not wait for the search."""
        script, program = self.folder / "script", self.folder / "program.py"
        edits = [f"span {activity} {activity % 60} {activity % 60 + 45}" for activity in range(320)]
        script.write_text("\n".join([*drawn_script(11, 100, 320), *edits]))
        program.write_text(BROKEN_OFF)
        environment = {**os.environ, "PYTHONPATH": str(TOP / "python")}
        words, pipe = [sys.executable, str(program), LIBRARY, str(script)], subprocess.PIPE
        with subprocess.Popen(words, stdout=pipe, stderr=pipe, env=environment) as command:
            self.addCleanup(command.kill)
            assert command.stdout is not None
            self.assertEqual(command.stdout.readline(), b"searching\n")
            wait_for_work(command.pid, worked(command.pid))
            command.send_signal(signal.SIGINT)
            output, error = command.communicate(timeout=LONG)
        self.assertEqual((command.returncode, output, error), (0, b"went on\n", b""))

    def test_which(self) -> None:
        with Bench.open(None, **OVER_LIBRARY) as bench:
            self.assertEqual((bench.engine, bench.program), (Engine("library", find_library(LIBRARY)), find_library(LIBRARY)))
            with Bench.open(None, engine=bench.engine) as other:
                self.assertEqual(other.cost(), 0)

    def test_periods(self) -> None:
        """None is mistaken for another one."""
        for period in (-1, 0, 1, 1_441, 65_536 + 10):
            with self.assertRaises(Ended) as told:
                Bench.open(None, period=period, **OVER_LIBRARY)
            self.assertEqual((told.exception.status, str(told.exception)), (2, "pespbench: the period is not 2 to 1440"))

    def test_faults(self) -> None:
        """Files that are refused, with the program's texts."""
        two, times = "1; 1; 2; 3; 5; 2\n2; 2; 1; 4; 6; 1\n", "1; 0\n2; 3\n"
        wrong = ["1; 1\n", "x; 1; 2; 3; 5; 2\n", "1; 1; -2; 3; 5; 2\n", "1; 1; 2; 3; 5; 0.5\n", "1; 1; 2; 5; 3; 2\n", two + two]
        wrong += ["1; 1; 2; 3; 1000000000000; 2\n", "\ufeff", "; ; \n", '"1; 1\n']
        rows = ["1\n", "x; 1\n", "1; 0\n1; 3\n", "7; 0\n", "1; 0.5\n", "1; 99999999999999999999\n"]
        cases: List[Dict[str, Union[str, Path]]] = [{"activities": text} for text in wrong]
        cases += [{"activities": two, name: text} for name in ("fixed", "times") for text in rows]
        cases += [{"activities": two, "fixed": rows[0], "times": rows[1]}, {"activities": wrong[0], "times": self.folder / "none"}]
        cases += [{"activities": wrong[0], "fixed": self.folder}, {"activities": two, "fixed": self.longest(), "times": times}]
        for case in cases:
            with self.subTest(case=case):
                self.assertEqual(self.told(case, OVER_LIBRARY), self.told(case, OVER_PROGRAM))

    def longest(self) -> Path:
        """A file with one byte more than allowed."""
        path = self.folder / "longest"
        path.touch()
        os.truncate(path, 67_108_865)
        return path

    def told(self, case: Dict[str, Union[str, Path]], how: Dict[str, Any]) -> Tuple[int, str, str]:
        """The end of opening files, from their texts or from paths."""
        for name, text in case.items():
            if isinstance(text, str):
                (self.folder / name).write_text(text, encoding="utf-8")
        paths: Dict[str, Any] = {name: self.folder / name if isinstance(text, str) else text for name, text in case.items()}
        try:
            with Bench.open(paths.pop("activities"), **paths, **how) as bench:
                return 0, bench.dump(), str(bench.times)
        except (Ended, FileFault) as ended:
            return getattr(ended, "status", 0), str(ended), ended.cure

    def test_many_sessions(self) -> None:
        """In parallel, and in processes of their own."""
        benches = [Bench.open(None, period=10, **OVER_LIBRARY) for _ in range(20)]
        for place, bench in enumerate(benches):
            bench.many(["add event 1", f"time 1 {place % 10}"])
        for place, bench in enumerate(benches):
            self.assertEqual(bench.times, {1: place % 10})
        [told] = variants(benches[3], [["time 1 0"]], ask="cost", workers=1)
        self.assertEqual(told, 0)
        for bench in benches:
            bench.close()


if __name__ == "__main__":
    unittest.main()
