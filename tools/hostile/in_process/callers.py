"""The callers of embedded/ in C, Rust and Python over an instrumented library: they behave like the program."""

import contextlib
import io
import shutil
import subprocess
import sys
from pathlib import Path
from typing import Callable, Dict, List, Sequence, Tuple

from hostile.in_process.building import C_FLAGS, HEADERS, WAYS, compiler, has_prices, runtime
from paging.tree import NotMade, run
from tests.embedded import refusals, stories
from tests.harness import TOP, Suite
from tests.harness import run as tried

FLAGS = WAYS["sanitizers"].flags
# The sanitizer's own library comes before all others.
FIRST = "libasan.so"
# rustc links no library without being told.
RUNTIMES = ["-lasan", "-lubsan"]
# The exit status for a sanitizer's finding.
WATCHED = ["env", "ASAN_OPTIONS=exitcode=98"]
# Python keeps memory until its end, and is not instrumented: the sanitizer's library is preloaded.
UNLEAKED = ["env", "ASAN_OPTIONS=exitcode=98:detect_leaks=0"]
LINE = TOP / "examples/hourly-line"
NUMBERS: Dict[str, Tuple[List[object], bytes]] = {
    "moves": ([60, LINE / "activities", LINE / "times", 1000], b"cost 503, now 318\n"),
    "search": ([60, LINE / "activities"], b"cost 180, none costs less than 180\n"),
    "prices": ([10, TOP / "examples/two-trains/activities", "-", 2], b"##########\n^^^^^^^^^^\n0\nat best 4, at worst 4\n"),
}


def in_c(folder: Path, heap: Path, library: Sequence[Path]) -> List[object]:
    for name in ["answer", *(name for name in NUMBERS if name != "prices" or has_prices(library))]:
        run([compiler(), *C_FLAGS, *FLAGS, "-o", folder / name, HEADERS / f"{name}.c", heap, *library])
    return [*WATCHED, folder / "answer"]


def in_python(folder: Path, heap: Path, library: Sequence[Path]) -> List[object]:
    shared = folder / "libpespbench.so"
    run([compiler(), *FLAGS, "-shared", "-o", shared, heap, "-Wl,--whole-archive", *library, "-Wl,--no-whole-archive"])
    return [*UNLEAKED, f"LD_PRELOAD={runtime(FIRST)}", sys.executable, "-B", HEADERS / "answer.py", shared]


def in_rust(folder: Path, heap: Path, library: Sequence[Path]) -> List[object]:
    links = [f"-Clink-arg={word}" for word in [heap, *library, *RUNTIMES]]
    run(["rustc", "--edition=2021", "-O", "-o", folder / "in-rust", HEADERS / "answer.rs", *links])
    return [*WATCHED, f"LD_PRELOAD={runtime(FIRST)}", folder / "in-rust"]


# The function that builds the command of a caller, by its language.
LANGUAGES: Dict[str, Callable[[Path, Path, Sequence[Path]], List[object]]] = {"Rust": in_rust, "Python": in_python, "C": in_c}


def crate(suite: Suite, library: Sequence[Path]) -> None:
    """The crate for Cargo: its own tests."""
    place, archive = suite.folder / "rust", suite.folder / "lib"
    shutil.copytree(HEADERS / "rust", place)
    archive.mkdir()
    for path in [path for path in library if path.suffix == ".a"]:
        shutil.copyfile(path, archive / "libpespbench.a")
    run(["ar", "qcs", archive / "libpespbench.a", suite.folder / "heap.o", *(path for path in library if path.suffix != ".a")])
    target = host()
    env = {"PESPBENCH_LIB": archive, "RUSTFLAGS": " ".join(f"-Clink-arg={word}" for word in RUNTIMES)}
    env[f"CARGO_TARGET_{target.upper().replace('-', '_')}_RUNNER"] = " ".join([*WATCHED, f"LD_PRELOAD={runtime(FIRST)}"])
    words = ["env", *(f"{name}={value}" for name, value in env.items()), "cargo", "test", "--offline", "--quiet"]
    # With a named target, the sanitizer does not apply to build scripts.
    came = tried([*words, "--target", target, "--target-dir", suite.folder / "target"], cwd=place, seconds=300)
    suite.note("the crate's own tests", {"status": 0}, came)


def host() -> str:
    told = subprocess.run(["rustc", "-vV"], capture_output=True, text=True, check=True).stdout
    return told.split("host: ")[1].split()[0]


def numbers(suite: Suite) -> None:
    """What each program of numbers prints; there is none for prices over a library without them."""
    for name, (words, wanted) in [(name, given) for name, given in NUMBERS.items() if (suite.folder / name).exists()]:
        suite.note(name, {"status": 0, "standard output": wanted}, tried([*WATCHED, suite.folder / name, *words]))


def try_language(suite: Suite, language: str, library: Sequence[Path]) -> Tuple[int, List[str]]:
    """The number of passed cases of a caller, and the faults."""
    told, heap = io.StringIO(), suite.folder / "heap.o"
    suite.tally.write_text("")
    try:
        run([compiler(), *C_FLAGS, *FLAGS, "-fPIC", "-c", HEADERS / "heap.c", "-o", heap])
        if language == "Rust" and not shutil.which("rustc"):
            return 0, []
        made = {language: LANGUAGES[language](suite.folder, heap, library)}
    except NotMade as fault:
        return 0, [f"FAILED callers: {fault}"]
    with contextlib.redirect_stdout(told):
        stories(suite, made)
        # The group embedded has the longest files.
        refusals(suite, made, has_longest=False)
        if language == "C":
            numbers(suite)
        if language == "Rust" and shutil.which("cargo"):
            crate(suite, library)
    tally = suite.tally.read_text()
    return tally.count("p"), [told.getvalue()] * bool(tally.count("f"))
