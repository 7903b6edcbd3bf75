"""The tests that need no proof, a few parts at once."""

import argparse
import difflib
import os
import re
import shlex
import shutil
import subprocess
import sys
import tempfile
import time
from concurrent.futures import FIRST_COMPLETED, ThreadPoolExecutor, wait
from functools import partial
from pathlib import Path
from typing import Callable, Collection, Dict, List, NamedTuple, Sequence, Tuple

from page_tests.browser import found as browser
from tests import main as whole
from tests.case_files import told, write_cases
from tests.harness import TOP, patient, positive
from tests.module_program import MODULE

CRATES = ["pesp_tests_search", "pesp_tests_core", "pesp_tests_text", "pesp_tests_shell"]
# These groups do not test the module: the built program's memory, the library in process, the module compared with
# the program, and the time of a start.
PROGRAM_ALONE = ["want_of_memory", "memory_of_commands", "embedded", "page_module", "module_rows", "module_streams"]
PROGRAM_ALONE += ["look_for_sources", "documents_of_what_is_built"]
# The module starts more slowly than the program, and other parts run at the same time.
SLOWER = "4"
# The seconds after which the parts that run are reported again.
SILENT = 20
# The shares of the page's tests, each with a browser of its own.
PAGE = [f"the page in a browser, {share}/4" for share in range(1, 5)]
# The longest parts, which start first, so that none of them runs alone at the end.
LONGEST = ["the program's rows and streams", *PAGE, "python_why", "pesp_tests_text", "pesp_tests_shell"]
LONGEST += ["python_variants", "python_files", "damaged_files", "pesp_tests_core", "drawn_streams"]
# The commands that some groups need besides Node.
MORE = {"python_browser": "browser"}
# The Debian packages that parts need, and those of cases of a whole run, which are skipped without them.
PACKAGES = {"node": "nodejs", "browser": "chromium"}
OF_CASES = {"mypy": "mypy", "pyflakes3": "pyflakes3", "tsc": "node-typescript", "eslint": "eslint", "gcc": "gcc", "wasm2c": "wabt"}
COUNTS = re.compile(r"(\d+) passed(?:, (\d+) failed)?")


# The numbers of passed and failed cases, and the output.
Counts = Tuple[int, int, str]


class Part(NamedTuple):
    """A part of the tests: the commands that it needs, and the function that returns its counts and its output."""

    name: str
    wants: List[str]
    run: Callable[[], Counts]


def is_there(wanted: str) -> bool:
    return browser() is not None if wanted == "browser" else shutil.which(wanted) is not None


def called(words: Sequence[object], folder: Path = TOP) -> Tuple[int, str]:
    done = subprocess.run(list(map(str, words)), cwd=folder, stdout=subprocess.PIPE, stderr=subprocess.STDOUT, text=True, errors="replace")
    return done.returncode, done.stdout


def counted(words: Sequence[object], folder: Path = TOP) -> Counts:
    """The counts in a command's last line; one that fails without reporting a failure counts as one."""
    status, output = called(words, folder)
    found = COUNTS.findall(output)
    passed, failed = (int(number or 0) for number in found[-1]) if found else (int(status == 0), 0)
    return passed, failed or int(status != 0), output


def crate(name: str) -> Counts:
    status, output = called(["rt", "try", "--test", "--seconds", patient(300)], TOP / "crates" / name)
    return output.count("... ok\n"), int(status != 0), output


def cases() -> Counts:
    """The program, built once without a proof, over rows and streams whose replies are known."""
    with tempfile.TemporaryDirectory() as name:
        wanted, data = write_cases(Path(name))
        words = ["rt", "try", "--steps", "1000", "--seconds", str(patient(600)), *data, "--cases", str(Path(name) / "cases")]
        done = subprocess.run(words, cwd=TOP / "crates/pespbench", capture_output=True, text=True, errors="replace")
        wrong = told(done.stdout, done.stderr, wanted)
    tail = "" if done.returncode == 0 else "\n".join(done.stderr.splitlines()[-20:])
    return len(wanted) - len(wrong), len(wrong), "\n".join([*wrong, tail])


def in_its_place(folder: str) -> Path:
    """The module as a program of one file, which runs wherever it is copied and whatever path it is given."""
    path = Path(folder) / "pespbench"
    path.write_text(f"#!/bin/sh\nPATH=$PATH:{shlex.quote(os.environ['PATH'])} exec {shlex.quote(str(MODULE))} \"$@\"\n")
    path.chmod(0o755)
    return path


def parts(program: Path, patience: int) -> List[Part]:
    """All parts, the longest first."""
    how: List[object] = ["--patience", patience]
    found = [Part("the program's rows and streams", ["rt", "node"], cases)]
    found += [Part(name, ["rt"], partial(crate, name)) for name in CRATES]
    for share in PAGE:
        found.append(Part(share, ["browser"], partial(counted, [sys.executable, TOP / "tools/test_page", *how, "--share", share.split()[-1]])))
    for name in whole.groups():
        if name not in PROGRAM_ALONE:
            words: List[object] = [sys.executable, TOP / "tools/test_program", *how, "--slower", SLOWER, "--only", name, program]
            wants = ["node", *filter(None, [MORE.get(name)])]
            found.append(Part(name, wants, partial(counted, words)))
    return sorted(found, key=lambda part: LONGEST.index(part.name) if part.name in LONGEST else len(LONGEST))


def timed(part: Part, began: Dict[str, float]) -> Tuple[int, int, str, float]:
    """What a part gives, with its seconds; it is among those that run until then."""
    began[part.name] = time.monotonic()
    counts = part.run()
    return (*counts, time.monotonic() - began.pop(part.name))


def set_up(wanted: Collection[str], is_whole: bool) -> None:
    """Installs the missing commands, where that is allowed, or names their packages."""
    commands = {each: package for each, package in PACKAGES.items() if each in wanted and not is_there(each)}
    for command, package in {**commands, **(OF_CASES if is_whole else {})}.items():
        name = package if command == "browser" else command
        subprocess.run([TOP / "tools/packing/want", name, package, "tools/test"], check=False)


def run_all(chosen: Sequence[Part], jobs: int) -> Tuple[int, int]:
    """Runs all, and prints each as it ends, and from the first second on what runs, is done and waits."""
    passed = failed = 0
    began: Dict[str, float] = {}
    with ThreadPoolExecutor(jobs) as threads:
        left = {threads.submit(timed, part, began): part.name for part in chosen}
        print_at = time.monotonic() + 0.5
        while left:
            ended, _ = wait(left, max(0, print_at - time.monotonic()), FIRST_COMPLETED)
            for future in ended:
                good, bad, output, seconds = future.result()
                if bad:
                    print(output.rstrip())
                print(f"{left.pop(future)}: {good} passed, {bad} failed, {seconds:.1f} s", flush=True)
                passed, failed = passed + good, failed + bad
            if left and time.monotonic() >= print_at:
                print(progress(len(chosen), len(left), dict(began)), flush=True)
                print_at = time.monotonic() + SILENT
    return passed, failed


def progress(count: int, left: int, began: Dict[str, float]) -> str:
    """How many parts are done and wait, and which run, for how many seconds."""
    runs = ", ".join(f"{name} ({time.monotonic() - since:.0f} s)" for name, since in began.items())
    return f"tools/test: {count - left} of {count} parts are done, {left - len(began)} wait, and these run: {runs}"


def main(words: Sequence[str]) -> int:
    parser = argparse.ArgumentParser(prog="tools/test", description="Runs the tests without proving anything.")
    parser.add_argument("--list", action="store_true", help="print the names of the parts")
    parser.add_argument("--only", action="append", metavar="NAME", help="run only this part")
    parser.add_argument("--patience", type=positive, default=1, metavar="N", help="make each limit of time N times as long, on a slow or busy machine")
    parser.add_argument("--jobs", type=int, default=min(4, os.cpu_count() or 1), help="how many parts run at once")
    chosen = parser.parse_args(words)
    os.environ["PESPBENCH_PATIENCE"] = str(chosen.patience)
    with tempfile.TemporaryDirectory() as folder:
        known = {part.name: part for part in parts(in_its_place(folder), chosen.patience)}
        for name in filter(lambda name: name not in known, chosen.only or []):
            like = difflib.get_close_matches(name, known, 1)
            parser.error(f"there is no part {name!r}; " + (f"there is {like[0]!r}" if like else "--list names them"))
        return of_parts(chosen, [part for name, part in known.items() if not chosen.only or name in chosen.only])


def of_parts(words: argparse.Namespace, known: Sequence[Part]) -> int:
    if words.list:
        print("\n".join(part.name for part in known))
        return 0
    print("tools/test: nothing is proved here; .ci/run proves everything", flush=True)
    set_up({each for part in known for each in part.wants}, not words.only)
    missing = [wanted for wanted in sorted({each for part in known for each in part.wants}) if not is_there(wanted)]
    there = [part for part in known if not set(part.wants) & set(missing)]
    passed, failed = run_all(there, max(1, words.jobs))
    for wanted in missing:
        print(f"tools/test: there is no {wanted}, so {sum(wanted in part.wants for part in known)} parts were not tried")
    print("tools/test: nothing of this was proved")
    print(f"{passed} passed, {failed} failed")
    return int(failed > 0 or not there)


if __name__ == "__main__":
    sys.exit(main(sys.argv[1:]))
