"""Runs groups of tests, each in a process of its own that is killed when its time is over."""

import argparse
import multiprocessing
import os
import pathlib
import signal
import tempfile
import time
import traceback
from typing import Callable, Dict, Mapping, Optional, Sequence, Tuple

from tests import arguments, checks, commands, devices, dialogue, documents, drawing, drawn_cases, embedded, examples, files, helping, installing, layout
from tests import limited, module_program, package, packaging, page_module, quick_model, rows, scripts, several, shelves, solvers, sources, start_script, strangers, streams, unproved
from tests import without_proof, wording, written
from tests.harness import PROGRAM, Suite, positive

# A group of tests, a function with a name.
Group = Callable[[Suite], None]

TOPICS = [examples, commands, quick_model, dialogue, streams, limited, several, arguments, files, rows, checks, devices, scripts, drawing, documents]
TOPICS += [start_script, unproved, shelves, strangers, packaging, installing, package, embedded, layout, page_module, module_program, written, wording]
TOPICS += [sources, solvers, without_proof, helping, drawn_cases]
# A group takes a few seconds; this is the limit by default.
SECONDS = 240


def groups() -> Dict[str, Group]:
    return {group.__name__: group for topic in TOPICS for group in topic.GROUPS}


def limit_of(group: Group) -> int:
    return int(getattr(group, "seconds", SECONDS))


def alone(group: Group, suite: Suite) -> None:
    """Runs a group in a session of its own, so that all processes that it starts can be killed with it.

    A script that starts the tests in the background ignores interrupts, or by `nohup` hang-ups, and so would all processes that
    they start.
    """
    os.setsid()
    signal.signal(signal.SIGINT, signal.default_int_handler)
    signal.signal(signal.SIGHUP, signal.SIG_DFL)
    try:
        group(suite)
    except Exception as fault:  # noqa: BLE001  what breaks a group off is told, whatever it is
        traceback.print_exc()
        suite.note(f"{group.__name__} broke off", {"fault": ""}, {"fault": f"{type(fault).__name__}: {fault}"})


def run_group(name: str, group: Group, program: pathlib.Path, folder: pathlib.Path, patience: int) -> Tuple[int, int]:
    """The numbers of passed and failed cases of a group, within a multiple of its seconds."""
    seconds = patience * limit_of(group)
    folder.mkdir()
    tally = folder.with_suffix(".tally")
    tally.write_text("")
    process = multiprocessing.get_context("fork").Process(target=alone, args=(group, Suite(program, folder, tally)))
    process.start()
    process.join(seconds)
    fault = "" if process.exitcode == 0 else "it broke off"
    if process.exitcode is None:
        last = tally.with_suffix(".last")
        fault = f"it is not done within {seconds} seconds; the last case was: {last.read_text() if last.exists() else 'none'}"
        os.killpg(process.pid or 0, signal.SIGKILL)
        process.join()
    if fault:
        print(f"FAILED group {name}: {fault}")
    cases = tally.read_text()
    return cases.count("p"), cases.count("f") + bool(fault)


def run_all(chosen: Mapping[str, Group], program: pathlib.Path, patience: int) -> bool:
    passed = failed = 0
    with tempfile.TemporaryDirectory() as name:
        for number, (title, group) in enumerate(chosen.items()):
            began = time.monotonic()
            counts = run_group(title, group, program, pathlib.Path(name).resolve() / str(number), patience)
            print(f"{title}: {counts[0]} passed, {counts[1]} failed, {time.monotonic() - began:.1f} s", flush=True)
            passed, failed = passed + counts[0], failed + counts[1]
    print(f"{passed} passed, {failed} failed")
    return failed > 0


def main(words: Optional[Sequence[str]]) -> int:
    parser = argparse.ArgumentParser(prog="tools/test_program", description="Runs the tests of the built programs.")
    parser.add_argument("--list", action="store_true", help="print the names of the groups, and the seconds of each")
    parser.add_argument("--only", action="append", metavar="NAME", choices=groups(), help="run only this group")
    parser.add_argument("--patience", type=positive, default=1, metavar="N", help="make each limit of time N times as long, on a slow or busy machine")
    parser.add_argument("--slower", type=positive, default=1, metavar="N", help="give each group N times its seconds, over a program so much slower, and have the package's tests draw N times fewer")
    parser.add_argument("program", nargs="?", type=pathlib.Path, default=PROGRAM, help="the program [default: the built one]")
    chosen = parser.parse_args(words)
    if chosen.list:
        print("\n".join(f"{name} {limit_of(group)}" for name, group in groups().items()))
        return 0
    program = chosen.program.absolute()
    if not os.access(program, os.X_OK):
        parser.error(f"there is no program at {program}")
    # The tests of the Python package read it from there.
    os.environ.update(PESPBENCH_PATIENCE=str(chosen.patience), PESPBENCH_SLOWER=str(chosen.slower))
    return run_all({name: group for name, group in groups().items() if not chosen.only or name in chosen.only}, program, chosen.patience * chosen.slower)
