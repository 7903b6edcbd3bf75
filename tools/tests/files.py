"""Files that cannot be read or are too long, pipes, and which of several faults is named."""

import itertools
import os
import threading
from pathlib import Path
from typing import Any, Dict, List, Tuple

from tests.file_cases import FIELDS, TWO, TWO_FIXED, TWO_TIMES
from tests.harness import NAMES, Suite, missing, record, too_long, unreadable, words_for
from tests.replies import EMPTY_REPLIES, FIXED_REPLIES, TWO_REPLIES

LONGEST = 67_108_864


def unreadable_files(suite: Suite) -> None:
    folder = suite.folder / "folder"
    folder.mkdir()
    table = {
        "a missing file": "no such file",
        "a folder": folder,
        "an empty path": "",
        "a path through a file": suite.file("plain", b"") / "file",
        "a read that fails": "/proc/self/mem",
    }
    for name in NAMES:
        for title, path in table.items():
            words = words_for(name, path)
            suite.check(f"{name}: {title}", words, status=1, error=unreadable(name), cwd=suite.folder)


def long_files(suite: Suite) -> None:
    over = suite.file("over", b" " * (LONGEST + 1))
    sparse = suite.file("sparse", b"")
    os.truncate(sparse, 1 << 36)
    for name in NAMES:
        wanted = {"status": 1, "error": too_long(name)}
        suite.check(f"{name}: one byte too many", words_for(name, over), **wanted)
        suite.check(f"{name}: a sparse file of 64 GiB", words_for(name, sparse), **wanted)
        suite.check(f"{name}: a device without end", words_for(name, "/dev/zero"), **wanted)
        words = words_for(name, "/dev/stdin")
        suite.check(f"{name}: a pipe with one byte too many", words, given=b" " * (LONGEST + 1), **wanted)
        suite.check(f"{name}: a pipe that holds far more", words, given=b" " * (LONGEST + 5_000_000), **wanted)
    over.unlink()


def longest_files(suite: Suite) -> None:
    spaces = b" " * LONGEST
    longest = suite.file("longest", spaces)
    for name in NAMES:
        suite.check(f"{name}: the greatest length", words_for(name, longest), output=EMPTY_REPLIES)
        words = words_for(name, "/dev/stdin")
        suite.check(f"{name}: a pipe of the greatest length", words, given=spaces, output=EMPTY_REPLIES)
    longest.write_bytes(b"\n" * LONGEST)
    suite.check("activities: the greatest number of lines", [longest], output=EMPTY_REPLIES)
    longest.unlink()


class Writer:
    """Writes to a named pipe during a run, and ends with it, even if the run did not open the pipe."""

    def __init__(self, fifo: Path, content: bytes) -> None:
        self.fifo = fifo
        self.thread = threading.Thread(target=self.write, args=(content,), daemon=True)

    def write(self, content: bytes) -> None:
        try:
            self.fifo.write_bytes(content)
        except BrokenPipeError:
            pass

    def __enter__(self) -> None:
        self.thread.start()

    def __exit__(self, *_: object) -> None:
        # A short-lived reader releases a writer that still waits for one.
        os.close(os.open(self.fifo, os.O_RDONLY | os.O_NONBLOCK))
        self.thread.join()


def pipes(suite: Suite) -> None:
    fifo = suite.folder / "fifo"
    os.mkfifo(fifo)
    table: List[Tuple[str, bytes, Dict[str, Any]]] = [
        ("a named pipe", TWO_TIMES, {"output": TWO_REPLIES}),
        ("a named pipe with too much", b"\n" * (LONGEST + 1), {"status": 1, "error": too_long("times")}),
    ]
    for name, content, wanted in table:
        with Writer(fifo, content):
            suite.check(name, ["--period", "10", "--times", fifo, suite.file("activities", TWO)], **wanted)
    suite.check("activities from a pipe", ["--period", "10", "/dev/stdin"], given=TWO, output=missing(1))
    words = ["--period", "10", "--fixed", "/dev/stdin", "--times", suite.file("times", TWO_TIMES)]
    words.append(suite.file("activities", TWO))
    suite.check("fixed times from a pipe", words, given=TWO_FIXED, output=FIXED_REPLIES)
    words = ["--fixed", "/dev/null", "--times", "/dev/null", "/dev/null"]
    suite.check("an empty device", words, output=EMPTY_REPLIES)


def order_of_faults(suite: Suite) -> None:
    """Three files, each of them valid, faulty, missing or too long."""
    fine = {"activities": TWO, "fixed": TWO_FIXED, "times": TWO_TIMES}
    sparse = suite.file("sparse", b"")
    os.truncate(sparse, LONGEST + 1)
    for states in itertools.product(["fine", "faulty", "missing", "too long"], repeat=3):
        words: List[object] = ["--period", "10"]
        early: List[bytes] = []
        late: List[bytes] = []
        for name, state in zip(NAMES, states):
            paths = {"missing": "no such file", "too long": sparse}
            content = fine[name] if state == "fine" else b"0"
            words += words_for(name, paths.get(state) or suite.file(name, content))
            early += {"missing": [unreadable(name)], "too long": [too_long(name)]}.get(state, [])
            late += [record(name, 1, FIELDS)] if state == "faulty" else []
        faults = early + late
        wanted: Dict[str, Any] = {"status": 1, "error": faults[0]} if faults else {"output": FIXED_REPLIES}
        title = ", ".join(f"{name} {state}" for name, state in zip(NAMES, states))
        suite.check(f"order of faults: {title}", words, cwd=suite.folder, **wanted)
    activities, faulty = suite.file("activities", TWO), suite.file("faulty", b"0")
    for name in ["fixed", "times"]:
        suite.check(f"faulty {name} before a missing time", [f"--{name}", faulty, activities], status=1, error=record(name, 1, FIELDS))


GROUPS = [unreadable_files, long_files, longest_files, pipes, order_of_faults]
