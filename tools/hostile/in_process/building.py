"""A caller of the library (caller.c), compiled for each instrument.

The library's own code is instrumented too: the toolchain's clang compiles its LLVM module, which tools/library keeps, with the
checks of a sanitizer, and gcc links them with its own. Under memcheck the library is the same that callers link.
"""

import os
import re
import shutil
import subprocess
from pathlib import Path
from typing import Dict, List, NamedTuple, Optional, Sequence

from paging.library import MADE, MODULE
from paging.tree import NotMade, run, toolchain
from tests.harness import TOP

HERE = Path(__file__).resolve().parent
HEADERS = TOP / "embedded"
C_FLAGS = ["-std=gnu11", "-g", "-O1", "-Wall", "-Wextra", "-Werror", "-fno-omit-frame-pointer", "-pthread"]
# heap.c requests its memory from memory.c, which counts and refuses.
WATCHED = [f"-D{name}=watched_{name}" for name in ("malloc", "realloc", "free")]
WATCHED_NAMES = "void *watched_malloc(unsigned long); void *watched_realloc(void *, unsigned long); void watched_free(void *);\n"


class Way(NamedTuple):
    """An instrument: flags of the C compiler, and the sanitizer of the library's own code, with its function attribute and its
    runtime calls; the words before those of the caller; and the number of threads that call the library."""

    flags: List[str]
    sanitizer: str
    attribute: str
    called: bytes
    before: List[str]
    threads: int


MEMCHECK = ["valgrind", "--quiet", "--error-exitcode=99", "--exit-on-first-error=yes", "--leak-check=full", "--show-leak-kinds=all", "--errors-for-leak-kinds=all"]
WAYS: Dict[str, Way] = {
    "sanitizers": Way(["-fsanitize=address,undefined", "-fno-sanitize-recover=undefined"], "address", "sanitize_address", b"__asan_report_load", [], 1),
    "threads": Way(["-fsanitize=thread"], "thread", "sanitize_thread", b"__tsan_read", [], 2),
    "memcheck": Way([], "", "", b"", MEMCHECK, 1),
}
# A finding of a sanitizer ends the caller.
SETTINGS = {"ASAN_OPTIONS": "exitcode=98:detect_stack_use_after_return=1", "TSAN_OPTIONS": "exitcode=97:halt_on_error=1", "UBSAN_OPTIONS": "print_stacktrace=1"}


class Caller(NamedTuple):
    """The command of the caller, the number of its threads, and whether its library has prices."""

    words: List[object]
    env: Dict[str, str]
    threads: int
    has_prices: bool


def compiler() -> Optional[str]:
    return shutil.which("gcc") or shutil.which("cc")


def runtime(name: str) -> str:
    """The path of a library of the compiler, or only its name if it is missing."""
    words = [str(compiler()), f"-print-file-name={name}"]
    return subprocess.run(words, capture_output=True, text=True, check=True).stdout.strip()


# The attributes of functions by number, and a function that has none of these.
GROUP = re.compile(r"^(attributes #\d+ = \{)", re.M)
BARE = re.compile(r"^(define .*\)(?: (?:local_)?unnamed_addr)?)((?:(?!#\d)[^)\n])*\{)$", re.M)


def with_attribute(text: str, attribute: str) -> str:
    """The text of a module all of whose functions have an attribute, which makes a sanitizer instrument them."""
    return BARE.sub(rf"\1 {attribute}\2", GROUP.sub(rf"\1 {attribute}", text))


def watched_library(folder: Path, name: str, way: Way) -> Path:
    """The library as an object with a sanitizer's instrumentation."""
    clang, text, made = toolchain() / "toolchain/bin/clang", folder / f"{name}.ll", folder / f"{name}.o"
    run([clang, "-x", "ir", MODULE, "-S", "-emit-llvm", "-O0", "-Xclang", "-disable-llvm-passes", "-o", text])
    text.write_text(with_attribute(text.read_text(), way.attribute))
    # -O1 took three processor minutes, and this takes 11 seconds.
    run([clang, f"-fsanitize={way.sanitizer}", "-O0", "-fPIC", "-Wno-override-module", "-c", "-x", "ir", text, "-o", made])
    if way.called not in made.read_bytes():
        raise NotMade("the library's code is not watched: the clang of the toolchain has left the sanitizer out")
    return made


def library_for(folder: Path, name: str, given: Sequence[Path]) -> List[Path]:
    """The library to link for an instrument, or the given replacement."""
    if given:
        return list(given)
    if not MADE.exists() or not MODULE.exists():
        raise NotMade(f"there is no {MADE.relative_to(TOP)}, which tools/library makes")
    way = WAYS[name]
    return [watched_library(folder, name, way)] if way.attribute else [MADE]


def has_prices(library: Sequence[Path]) -> bool:
    """Whether a library has the calls for prices, which that of the page's module lacks."""
    return any(b"pesp_price_tension\0" in path.read_bytes() for path in library)


def made_caller(folder: Path, name: str, library: Sequence[Path], more: Sequence[object] = (), title: str = "caller") -> Caller:
    """The caller over a library, with additional compiler arguments."""
    way, cc, prices = WAYS[name], compiler(), has_prices(library)
    program, heap = folder / f"{title}-{name}", folder / f"heap-{name}.o"
    names = folder / "watched.h"
    names.write_text(WATCHED_NAMES)
    run([cc, *C_FLAGS, *way.flags, "-include", "stdlib.h", "-include", names, *WATCHED, "-c", HEADERS / "heap.c", "-o", heap])
    sources = [HERE / source for source in ("caller.c", "calls.c", "memory.c", "names.c")]
    flags = [*C_FLAGS, *way.flags, *["-DWITHOUT_PRICES"] * (not prices)]
    run([cc, *flags, f"-I{HEADERS}", "-o", program, *sources, heap, *more, *library])
    return Caller([*way.before, program], {**os.environ, **SETTINGS}, way.threads, prices)
