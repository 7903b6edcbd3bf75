"""Runs each part on each input, several in parallel."""

import argparse
import concurrent.futures
import os
import pathlib
import tempfile
import time
from typing import Callable, Dict, Iterable, Iterator, Optional, Sequence, Tuple

from hostile.calls import CALLER, calls
from hostile.damage import damage
from hostile.failing import devices
from hostile.growths import growths
from hostile.inputs import Input, example, inputs
from hostile.judged import judges
from hostile.served import build_library
from hostile.suite import Suite
from tests.examples import folders
from tests.harness import PROGRAM

PARTS: Dict[str, Callable[[Suite, Input], None]] = {"judges": judges, "calls": calls, "growths": growths, "devices": devices, "damage": damage}
TRIED = {
    "judges": "programs",
    "calls": "refused requests of calls",
    "growths": "refused requests",
    "devices": "runs with faulty devices",
    "damage": "damaged texts, each twice",
}


def run_part(part: str, given: Input, words: argparse.Namespace, library: pathlib.Path) -> Tuple[Suite, float]:
    """A part on one input, in a process of its own."""
    suite, began = Suite(words.program, library, words.all), time.monotonic()
    PARTS[part](suite, given)
    return suite, time.monotonic() - began


def tasks(parts: Sequence[str], folder: pathlib.Path) -> Iterator[Tuple[str, Input]]:
    """Each part with each of its inputs."""
    given = list(inputs(folder))
    own: Dict[str, Iterable[Input]] = {
        "judges": [Input("wrong runs", [], folder)],
        "calls": [Input(CALLER, [], folder)],
        "damage": map(example, folders()),
    }
    for part in parts:
        yield from ((part, each) for each in own.get(part, given))


def run_all(words: argparse.Namespace, folder: pathlib.Path) -> bool:
    library, chosen = build_library(folder), words.only or list(PARTS)
    totals = dict.fromkeys(PARTS, 0)
    passed = failed = 0
    with concurrent.futures.ProcessPoolExecutor(words.jobs) as pool:
        started = [(part, each, pool.submit(run_part, part, each, words, library)) for part, each in tasks(chosen, folder)]
        for part, each, future in started:
            suite, seconds = future.result()
            print("\n".join([*suite.faults, line_of(part, each, suite, seconds)]), flush=True)
            passed, failed = passed + suite.passed, failed + suite.failed()
            totals[part] += suite.runs
    print("tried: " + ", ".join(f"{totals[part]} {TRIED[part]}" for part in chosen if totals[part]))
    print(f"{passed} passed, {failed} failed")
    return failed > 0


def line_of(part: str, given: Input, suite: Suite, seconds: float) -> str:
    counts = f"{suite.passed} passed, {suite.failed()} failed"
    return ", ".join([f"{part} of {given.name}: {counts}", f"{suite.runs} {TRIED[part]}", *suite.notes, f"{seconds:.1f} s"])


def main(words: Optional[Sequence[str]]) -> int:
    parser = argparse.ArgumentParser(prog="tools/test_hostile", description="Tests the built program in hostile use.")
    parser.add_argument("--all", action="store_true", help="try each request and call of large inputs too")
    parser.add_argument("--only", action="append", choices=PARTS, help="run only this part")
    parser.add_argument("--jobs", type=int, default=len(os.sched_getaffinity(0)), help="how many run side by side")
    parser.add_argument("program", nargs="?", type=pathlib.Path, default=PROGRAM, help="the program [default: the built one]")
    chosen = parser.parse_args(words)
    chosen.program = chosen.program.absolute()
    if not os.access(chosen.program, os.X_OK):
        parser.error(f"there is no program at {chosen.program}")
    with tempfile.TemporaryDirectory() as name:
        return run_all(chosen, pathlib.Path(name).resolve())
