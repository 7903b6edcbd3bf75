#!/usr/bin/env python3
"""Stands in for the program where the tests themselves are tried: it reads the same words and answers by the model.

usage: tools/test_program tools/tests/stand_in.py

It is test code and slow. It is no part of the product, and nothing is proved of it.
"""

import argparse
import copy
import os
import pathlib
import stat
import sys
from typing import Dict, Iterator, List, Optional, Sequence

sys.dont_write_bytecode = True
sys.path.insert(0, str(pathlib.Path(__file__).resolve().parents[1]))

from tests import model, parsing, rules  # noqa: E402
from tests.changes import keeps  # noqa: E402
from tests.harness import NAMES  # noqa: E402
from tests.limits import GREATEST_PERIOD, LEAST_PERIOD  # noqa: E402

LONGEST_FILE = 67_108_864


class End(Exception):
    """The text of a fault that ends the run."""


class Once(argparse.Action):
    """An option that may be given once."""

    def __call__(self, parser: argparse.ArgumentParser, words: argparse.Namespace, value: object, option: Optional[str] = None) -> None:
        if getattr(words, f"has_{self.dest}", False):
            parser.error(f"{option} is given twice")
        setattr(words, f"has_{self.dest}", True)
        setattr(words, self.dest, True if self.nargs == 0 else value)


def period(word: str) -> int:
    value = int(word) if word.lstrip("+").isdigit() else 0
    if not LEAST_PERIOD <= value <= GREATEST_PERIOD:
        raise argparse.ArgumentTypeError(f"it is a number from {LEAST_PERIOD} to {GREATEST_PERIOD}")
    return value


def settings() -> argparse.Namespace:
    parser = argparse.ArgumentParser(prog="stand_in.py", allow_abbrev=False, description=__doc__.splitlines()[0])
    parser.epilog = "It reads commands. Columns: activity; from; to; lower; upper; weight and event; time. "
    parser.epilog += "Exit status: 0, 1, 2. See docs/FORMATS.md and examples/."
    parser.add_argument("--period", type=period, default=60, action=Once, help=f"{LEAST_PERIOD} to {GREATEST_PERIOD} [default: 60]")
    parser.add_argument("--fixed", action=Once)
    parser.add_argument("--times", action=Once)
    parser.add_argument("--check", nargs=0, action=Once)
    parser.add_argument("activities", nargs="?", metavar="ACTIVITIES")
    for word in sys.argv[1:]:
        try:
            os.fsencode(word).decode()
        except UnicodeDecodeError:
            parser.error("a word is not UTF-8")
    return parser.parse_args()


def read_file(name: str, path: Optional[str]) -> bytes:
    if path is None:
        return b""
    try:
        with open(path, "rb") as file:
            if stat.S_ISREG(os.fstat(file.fileno()).st_mode) and os.fstat(file.fileno()).st_size > LONGEST_FILE:
                raise End(f"{name} file is too long")
            text = file.read(LONGEST_FILE + 1)
    except (OSError, ValueError):
        raise End(f"{name} file cannot be read") from None
    if len(text) > LONGEST_FILE:
        raise End(f"{name} file is too long")
    return text


def opening(words: argparse.Namespace, texts: Dict[str, bytes]) -> model.Model:
    """The model of the files; their faults are found by the rules of a check."""
    checked = rules.check(words.period, **texts)
    if checked["error"]:
        raise End(checked["error"].decode().removeprefix("pespbench: ").rstrip("\n"))
    activities, _ = rules.read_activities(words.period, texts["activities"])
    pairs = [rules.read_events(name, texts[name], lambda *_: None) for name in ("fixed", "times")]
    return model.Model(words.period, activities, *pairs)


def write(lines: Sequence[str]) -> None:
    try:
        rest = "".join(f"{line}\n" for line in lines).encode()
        while rest:
            rest = rest[os.write(1, rest) :]
    except OSError:
        raise End("replies cannot be written") from None


def read_lines() -> Iterator[bytes]:
    """The lines of standard input, each as soon as it arrives, with its number."""
    held, place = b"", 0
    while True:
        line, end, rest = held.partition(b"\n")
        if held and place == parsing.MOST_LINES:
            raise End(f"more than {parsing.MOST_LINES} lines")
        if len(line) > parsing.LONGEST_LINE:
            raise End(f"line {place + 1} is longer than {parsing.LONGEST_LINE} bytes")
        if end:
            held, place = rest, place + 1
            yield line
            continue
        try:
            more = os.read(0, 2_048)
        except OSError:
            raise End("commands cannot be read") from None
        held += more
        if not more:
            break
    if held:
        yield held


class StandIn:
    """Answers lines; a known optimum is kept, since it answers `try`."""

    def __init__(self, bench: model.Model) -> None:
        self.bench = bench
        self.is_known = False

    def reply(self, line: bytes) -> List[str]:
        try:
            name, numbers = parsing.parse(line) or ("", [])
        except parsing.Fault:
            name, numbers = "", []
        before = copy.deepcopy(self.bench) if self.is_known else None
        lines = self.attempt(*numbers) if name == "try" else self.bench.reply(line)
        if lines == ["ok"] and name in parsing.EDITS:
            self.is_known = before is not None and keeps(before, self.bench, name, numbers)
        elif name in ("optimum", "adopt"):
            self.is_known = True
        return lines

    def attempt(self, limit: int) -> List[str]:
        if not self.is_known:
            found, self.is_known = self.bench.reached(min(limit, 100_000))
            if not self.is_known and found:
                best = min(found, key=self.bench.cost_of)
                return self.bench.timetable("stopped", self.bench.cost_of(best), best)
        return self.bench.optimum() if self.is_known else ["stopped none"]


def main() -> None:
    words = settings()
    texts = {name: read_file(name, getattr(words, name)) for name in NAMES}
    bench = opening(words, texts)
    if words.check:
        write([*bench.reply(b"tensions"), *bench.reply(b"violations"), *bench.reply(b"cost")])
        return
    stand_in = StandIn(bench)
    for line in read_lines():
        write(stand_in.reply(line))


if __name__ == "__main__":
    try:
        main()
    except End as end:
        print(f"pespbench: {end}", file=sys.stderr)
        sys.exit(1)
