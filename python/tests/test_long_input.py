"""Strangers' texts are read in one pass: in about a processor second a megabyte, and four times that for four."""

from __future__ import annotations

import json
import os
import subprocess
import sys
import time
import unittest
from concurrent.futures import ThreadPoolExecutor
from pathlib import Path
from typing import Any, Callable, Dict, Iterator, List, Tuple

from pespbench import Labels, files
from pespbench.client import PERIOD_COMMENT
from pespbench.curing import cure_of
from pespbench.faults import PespbenchError
from pespbench.lintim import LinTim, read_lintim
from pespbench.lintim.reading import read_stops, read_timetable
from pespbench.models.solution import FORMS, NOTHING
from pespbench.places import measure, quoted, read_places
from pespbench.replies import replies_of
from pespbench.terminal import shown
from tests.common import LONG, PATIENCE, SLOWER, TOP, Case

MEGABYTE = 1_000_000 // SLOWER
# Processor seconds of a megabyte on a slow machine, and the greatest ratio for four megabytes.
SECONDS, TIMES = 3.0 * PATIENCE, 10.0
# Seconds after which a reader is stopped, so that one that reads its text repeatedly is found soon.
GIVEN_UP = 2 * LONG


def text_of(path: Path) -> str:
    return path.read_text("latin-1")


def lines_of(path: Path) -> None:
    """The first step of `Bench.from_script`."""
    for line in text_of(path).split("\n"):
        PERIOD_COMMENT.match(line)


def solved(path: Path) -> None:
    """A text as the first line of each solver's file, and its long lines, below what begins one, as columns."""
    text = text_of(path)
    NOTHING.match(text)
    for form in FORMS:
        form.beginning.match(text)
    for line in (line for line in text.split("\n") if len(line) > 20):
        for column in {form.column for form in FORMS}:
            column.match(f"1 y1 {line}")


READERS: Dict[str, Callable[[Path], Any]] = {
    "activities": files.read_activities,
    "times": files.read_times,
    "labels": Labels.read,
    "places": read_places,
    "LinTim's activities": read_lintim,
    "LinTim's times": read_timetable,
    "LinTim's stops": lambda path: read_stops(path, LinTim({}, {}, 1)),
    "a solver's lines": solved,
    "what mends a file": lambda path: cure_of(path, 1, "activities"),
    "the period of a script": lines_of,
    "a reply": lambda path: list(replies_of(text_of(path))),
    "a name in a file": lambda path: quoted(text_of(path)),
    "a measure": lambda path: measure(text_of(path)),
    "what is shown": lambda path: shown(text_of(path)),
}
LETTERS = b"aA09;,\"'#\n\r\t .:+-eE\\_\0\x80\xff\x1b"
HEADS = [b"A; 1; ", b"event; line\n1; ", b"activity; kind\n1; ", b"1; drive; 1; 2; 3; 4; ", b"# period ", b"cost "]
BODIES = [b"1", b"1.", b"e1", b" ", b"\t", b'"', b'"\n']
PAIRS = [b"1;0\n", b"1;", b';"', b'""', b'"\r', b"#\n", b" \n", b"1\n", b"\r\n", b"a;1;1\n", b'"a";', b"# ", b"ok\n", b"event "]
# Shapes of which more is always read.
ALWAYS = ["b'9'", "b' '", "b'A; 1; ' and then b'1'"]


def shapes() -> Iterator[Tuple[str, Callable[[int], bytes]]]:
    """Texts of a stranger by their length: one character, pairs of them, and a field of one with an invalid end."""
    for letter in [LETTERS[place : place + 1] for place in range(len(LETTERS))] + PAIRS:
        yield repr(letter), lambda length, each=letter: each * (length // len(each))  # type: ignore[misc]
    for head in HEADS:
        for body in BODIES:
            name = f"{head!r} and then {body!r}"
            yield name, lambda length, head=head, body=body: head + body * (length // len(body)) + b"x\n"  # type: ignore[misc]


def taken(read: Callable[[Path], Any], path: Path, data: bytes) -> float:
    """The processor seconds until a text is read or refused."""
    path.write_bytes(data)
    began = time.process_time()
    try:
        read(path)
    except (PespbenchError, ValueError):
        pass
    return time.process_time() - began


def measured(name: str, path: Path) -> None:
    """Writes the figures of one megabyte and of four: for some shapes, and for those of which a quarter takes longest."""
    read, made = READERS[name], dict(shapes())
    took: Dict[str, float] = {}
    for shape, make in made.items():
        print(json.dumps([shape]), flush=True)
        took[shape] = taken(read, path, make(MEGABYTE // 4))
    for shape in {*ALWAYS, *sorted(took, key=lambda shape: -took[shape])[:3]}:
        print(json.dumps([shape]), flush=True)
        print(json.dumps([shape, *(taken(read, path, made[shape](count * MEGABYTE)) for count in (1, 4))]), flush=True)


class LongInput(Case):
    """Each reader, in a process of its own that is stopped if it takes too long."""

    def test_one_pass(self) -> None:
        with ThreadPoolExecutor(os.cpu_count()) as pool:
            measures = {name: pool.submit(self.told, name, self.folder / str(place)) for place, name in enumerate(READERS)}
        for name, measure_of in measures.items():
            with self.subTest(reader=name):
                for shape, one, four in measure_of.result():
                    self.assertLess(four, 4 * SECONDS * MEGABYTE / 1e6, shape)
                    self.assertLess(four, TIMES * max(one, 0.1), shape)

    def told(self, name: str, path: Path) -> List[Any]:
        words = [sys.executable, "-m", "tests.test_long_input", name, str(path)]
        environment = {**os.environ, "PYTHONPATH": str(TOP / "python")}
        try:
            done = subprocess.run(words, cwd=TOP / "python", env=environment, stdout=subprocess.PIPE, timeout=GIVEN_UP)
        except subprocess.TimeoutExpired as ended:
            self.fail(f"{name} was given up at {(ended.stdout or b'').splitlines()[-1:]}")
        self.assertEqual(done.returncode, 0)
        lines = [json.loads(line) for line in done.stdout.splitlines()]
        return [line for line in lines if len(line) == 3]


if __name__ == "__main__":
    if len(sys.argv) == 3:
        measured(sys.argv[1], Path(sys.argv[2]))
    else:
        unittest.main()
