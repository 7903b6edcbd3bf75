"""Runs each part, several tasks in parallel."""

import argparse
import concurrent.futures
import os
import random
import shutil
import tempfile
from pathlib import Path
from typing import Collection, Dict, List, Optional, Sequence

from hostile.in_process.building import compiler, runtime
from hostile.in_process.parts import PARTS, WANTED, Making, Result, Task, described, tasks
from hostile.in_process.playing import Counts
from paging.tree import NotMade
from tests.harness import PROGRAM

# They take a minute on two processors.
STREAMS = 200


def run_task(making: Making, task: Task) -> Result:
    return PARTS[task.part](making, task)


def untried() -> Dict[str, str]:
    """The parts that cannot be tried here, each with what is missing."""
    if compiler() is None:
        return {part: "no C compiler (gcc)" for part in PARTS}
    return {part: why for part, (name, why) in WANTED.items() if not (shutil.which(name) or os.path.isabs(runtime(name)))}


def made(making: Making, parts: Sequence[str], missing: Collection[str]) -> List[str]:
    """Builds what the parts need; returns the fault."""
    try:
        making.make_libraries(parts, missing)
        for part in parts:
            making.make_callers(part)
    except NotMade as fault:
        return [f"FAILED making: {fault}"]
    return []


def run_all(words: argparse.Namespace, folder: Path) -> bool:
    chosen = [part for part in PARTS if not words.only or part in words.only]
    missing, making = untried(), Making(words, folder)
    parts = [part for part in chosen if part not in missing]
    faults = made(making, parts, missing)
    print("".join(f"{fault}\n" for fault in faults), end="", flush=True)
    totals = {part: Counts() for part in parts}
    passed, failed = 0, len(faults)
    given = [] if faults else [task for part in parts for task in tasks(part, words.streams)]
    with concurrent.futures.ProcessPoolExecutor(words.jobs) as pool:
        for task, future in [(task, pool.submit(run_task, making, task)) for task in given]:
            result = future.result()
            print("\n".join([*result.faults, described(task, result)]), flush=True)
            totals[task.part] = totals[task.part].and_those(result.counts)
            passed, failed = passed + result.passed, failed + len(result.faults)
    for part, counts in totals.items():
        print(f"{part}: {counts.told()}" if counts.calls else f"{part}: done")
    for part in [part for part in chosen if part in missing]:
        print(f"tools/test_library: {part} was not tried: {missing[part]}")
    if "callers" in parts and not shutil.which("rustc"):
        print("tools/test_library: the caller in Rust was not tried: no rustc")
    if not making.have_prices():
        print("tools/test_library: the calls for prices were not tried: the library does not have them")
    print(f"{passed} passed, {failed} failed")
    return failed > 0


def main(typed: Optional[Sequence[str]]) -> bool:
    parser = argparse.ArgumentParser(prog="tools/test_library", description="Tests the library in process in hostile use.")
    parser.add_argument("--seed", type=int, default=random.SystemRandom().randrange(1_000_000_000), help="the same seed gives the same streams")
    parser.add_argument("--streams", type=int, default=STREAMS, help="how many drawn streams the sanitizers watch")
    parser.add_argument("--only", action="append", choices=PARTS, help="run only this part")
    parser.add_argument("--jobs", type=int, default=len(os.sched_getaffinity(0)), help="how many tasks run side by side")
    parser.add_argument("--library", type=Path, action="append", default=[], metavar="FILE", help="link this in the place of the built library")
    parser.add_argument("program", nargs="?", type=Path, default=PROGRAM, help="the program [default: the built one]")
    words = parser.parse_args(typed)
    words.program = words.program.absolute()
    if not os.access(words.program, os.X_OK):
        parser.error(f"there is no program at {words.program}")
    print(f"seed {words.seed}", flush=True)
    with tempfile.TemporaryDirectory() as name:
        return run_all(words, Path(name).resolve())
