"""The library in process: its callers in C, Rust and Python return the program's bytes, and their memory is used as
embedded/pespbench.h documents."""

import ctypes
import importlib.util
import os
import random
import shutil
import sys
from pathlib import Path
from types import ModuleType
from typing import Any, Callable, Dict, Iterator, List, Mapping, Optional, Sequence, Tuple

from tests.drawn_runs import drawn_run, told_by
from tests.examples import content, folders, words_of
from tests.file_cases import TWO
from tests.harness import SOME, TOP, VERSION, VERSION_NUMBER, Suite, closed_pipe, run, within
from tests.prices import draws_prices, prices
from tests.searches import refused_memory, searches
from tests.sessions import many_sessions, sessions

SOURCES = TOP / "embedded"
# tools/library makes it.
LIBRARY = TOP / "crates/pesp_embedded/out/libpesp_embedded.a"
DRAWN = 200
# A call of the library, by ctypes.
Call = Callable[..., None]
WARNINGS = ["-std=c11", "-Wall", "-Wextra", "-Wpedantic", "-Werror", "-O2"]


def made(suite: Suite, name: str, words: Sequence[object]) -> bool:
    came = run(words, seconds=100)
    suite.note(f"{name} is made", {"status": 0, "standard error": b""}, came)
    return came["status"] == 0


def callers(suite: Suite) -> Dict[str, List[object]]:
    """The commands that behave like the program, by their language."""
    folder, compiler, rustc = suite.folder, shutil.which("gcc") or shutil.which("cc"), shutil.which("rustc")
    suite.holds(f"there is {LIBRARY.relative_to(TOP)}, which tools/library makes", LIBRARY.exists())
    if not (compiler and LIBRARY.exists()):
        return {}
    found: Dict[str, List[object]] = {}
    heap = folder / "heap.o"
    is_shared = shared_library(suite) is not None
    if not heap.exists():
        return {}
    if made(suite, "answer.c", [compiler, *WARNINGS, "-o", folder / "in-c", SOURCES / "answer.c", heap, LIBRARY]):
        found["C"] = [folder / "in-c"]
    for name, more in [("moves", 2), ("search", 0), ("prices", 2)]:
        if made(suite, f"{name}.c", [compiler, *WARNINGS, "-o", folder / name, SOURCES / f"{name}.c", heap, LIBRARY]):
            came = run([folder / name, "65546", TOP / "examples/two-trains/activities", *["1"] * more])
            suite.note(f"{name} of a period that does not fit", {"status": 2, "standard output": b""}, came)
    many_sessions(suite, compiler, heap, LIBRARY)
    refused_memory(suite, answering(), compiler, heap, LIBRARY)
    if is_shared:
        found["Python"] = [sys.executable, "-B", SOURCES / "answer.py", shared(suite)]
    if rustc:
        words: List[object] = ["--edition=2021", "-O", "-o", folder / "in-rust", SOURCES / "answer.rs"]
        words += [f"-Clink-arg={heap}", f"-Clink-arg={LIBRARY}"]
        if made(suite, "answer.rs", [rustc, *words]):
            found["Rust"] = [folder / "in-rust"]
    return found


def shared(suite: Suite) -> Path:
    return suite.folder / "libpespbench.so"


def shared_library(suite: Suite) -> Optional[Path]:
    """The library as a shared one, made from that of tools/library; None if that or a compiler is missing."""
    compiler, heap = shutil.which("gcc") or shutil.which("cc"), suite.folder / "heap.o"
    if not (compiler and LIBRARY.exists()):
        return None
    if not made(suite, "heap.c", [compiler, *WARNINGS, "-fPIC", "-c", SOURCES / "heap.c", "-o", heap]):
        return None
    words = ["-shared", "-o", shared(suite), heap, "-Wl,--whole-archive", LIBRARY, "-Wl,--no-whole-archive"]
    return shared(suite) if made(suite, "the shared library", [compiler, *words]) else None


def asked_by(words: Sequence[str]) -> List[str]:
    """The period and the files of a command line: PERIOD ACTIVITIES FIXED TIMES."""
    given = {"--period": "60", "--fixed": "-", "--times": "-", "": "-"}
    name = ""
    for word in words:
        if word in given:
            name = word
        else:
            given[name], name = word, ""
    return [given["--period"], given[""], given["--fixed"], given["--times"]]


def stories(suite: Suite, made_of: Mapping[str, Sequence[object]]) -> None:
    """The stories of examples/ that have commands, including refused ones."""
    for folder in folders():
        commands = content(folder / "commands", None)
        if commands is None:
            continue
        wanted = {"status": int(content(folder / "status", b"0")), "standard output": content(folder / "expected")}
        wanted["standard error"] = content(folder / "error")
        for language, words in made_of.items():
            came = run([*words, *asked_by(words_of(folder))], given=commands, cwd=folder)
            suite.note(f"examples/{folder.name} in {language}", wanted, came)


@within(480)
def embedded(suite: Suite) -> None:
    """The stories of examples/, and random runs."""
    made_of = callers(suite)
    refusals(suite, made_of)
    stories(suite, made_of)
    if shared(suite).exists():
        module = answering()
        call = module.loaded(shared(suite))
        suite.note("its version", {"version": VERSION_NUMBER}, {"version": ctypes.CDLL(str(shared(suite))).pesp_version()})
        drawn_runs(suite, module, call)
        rooms(suite, module, call)
        periods(suite, module, call)
        sessions(suite, module, shared(suite))
        searches(suite, module, shared(suite))
        prices(suite, module, shared(suite))
        draws_prices(suite, "a picture of prices", suite.folder / "prices")


PERIODS = ["65546", "65535", "10x", "x10", "", " 10", "10 ", "-5", "0", "1", "2", "1440", "1441", "1e1", "10.0", "+10", "++10", "+", "0010", "9" * 30]


def odd_runs(suite: Suite, has_longest: bool) -> Iterator[Tuple[str, List[str], Dict[str, Any]]]:
    """Titles, and words PERIOD ACTIVITIES FIXED TIMES with input and output, at which a caller could easily differ from the
    program. With the longest, these include files of 64 MiB, which are read."""
    folder, two = str(suite.folder), str(suite.file("two", TWO))
    crossed, lines = str(suite.file("crossed", b"1; 1; 2; 5; 3; 2\n")), b"cost\n"
    for period in PERIODS:
        yield f"period {period!r}", [period, "-", "-", "-"], {"given": lines}
    yield "a refused period before a file that is not there", ["10x", "none", "-", "-"], {"given": lines, "cwd": folder}
    long, longest = suite.folder / "long", suite.folder / "longest"
    for path, length in [(long, 67_108_865), (longest, 67_108_864)]:
        path.touch()
        os.truncate(path, length)
    whole = [("file of 64 MiB", str(longest))] if has_longest else []
    for place in range(3):
        files = [two, "-", "-"] if place else ["-", "-", "-"]
        for title, name in [("folder", folder), ("file that is not there", "none"), ("file of 64 MiB + 1", str(long)), *whole]:
            yield f"a {title} in place {place}", ["10", *files[:place], name, *files[place + 1 :]], {"given": lines, "cwd": folder}
    yield "a folder after a fault of the activities", ["10", crossed, "-", folder], {"given": lines}
    yield "a fault of the activities before faulty times", ["10", crossed, "-", crossed], {"given": lines}
    with open("/dev/full", "wb") as full:
        yield "a full device", ["10", "-", "-", "-"], {"given": lines, "stdout": full}
        yield "a full device that gets nothing", ["10", "-", "-", "-"], {"given": b"# nothing\n", "stdout": full}
    writer = closed_pipe()
    yield "a reader that has gone", ["10", "-", "-", "-"], {"given": lines, "stdout": writer}
    os.close(writer)
    # Nothing can be read at its first byte. A folder would do, but Python itself ends with one.
    with open("/proc/self/mem", "rb", buffering=0) as memory:
        yield "commands that cannot be read", ["10", two, "-", "-"], {"stdin": memory}


def words_to(suite: Suite, period: str, activities: str, fixed: str, times: str) -> List[object]:
    """The program's words for those of a caller."""
    options = [f"--{name}={path}" for name, path in [("fixed", fixed), ("times", times)] if path != "-"]
    return [suite.program, "--period", period, *options, *([] if activities == "-" else [activities])]


def refusals(suite: Suite, languages: Mapping[str, Sequence[object]], has_longest: bool = True) -> None:
    """A caller refuses what the program refuses, with its status and its line; the texts of refused words are their own."""
    for title, words, how in odd_runs(suite, has_longest):
        told = run(words_to(suite, *words), **how)
        wanted = {**told, "standard error": SOME if told["status"] == 2 else told["standard error"]}
        for language, caller in languages.items():
            suite.note(f"{title}, in {language}", wanted, run([*caller, *words], **how))
    for count in [0, 1, 5]:
        for language, caller in languages.items():
            suite.note(f"{count} words, in {language}", {"status": 2, "standard error": SOME}, run([*caller, *["10", "-", "-", "-", "-"][:count]], given=b"cost\n"))


def answering() -> ModuleType:
    """embedded/answer.py as a module."""
    spec = importlib.util.spec_from_file_location("answer", SOURCES / "answer.py")
    assert spec is not None and spec.loader is not None
    module = importlib.util.module_from_spec(spec)
    spec.loader.exec_module(module)
    return module


def drawn_runs(suite: Suite, module: ModuleType, call: Call) -> None:
    draw = random.Random(41)
    for number in range(DRAWN):
        asked = drawn_run(draw)
        replies, told = module.answer(call, *asked)
        suite.note(f"drawn run {number}, {asked}", told_by(suite, asked), {"replies": replies, "fault": module.fault_of(told) or ""})


def into_room(module: ModuleType, call: Call, room: bytes, period: int, commands: bytes) -> Tuple[bytes, Dict[str, int]]:
    """The contents of a buffer after a call, and the report."""
    out, told = ctypes.create_string_buffer(room, len(room) + 1), module.Told(9, 9, 9, 9, 9)
    call(period, TWO, len(TWO), b"", 0, b"", 0, commands, len(commands), out, len(room), ctypes.byref(told))
    return out.raw[: len(room)], {name: getattr(told, name) for name, _ in module.Told._fields_}


def rooms(suite: Suite, module: ModuleType, call: Call) -> None:
    """The replies are at the start of the buffer, and the rest of it is unchanged."""
    replies = b"ok\nok\n"
    told = {"length": len(replies), "place": 0, "status": 0, "reason": 0, "field": 0}
    for length in [0, 1, len(replies) - 1, len(replies), len(replies) + 1, 1000]:
        came = into_room(module, call, b"." * length, 10, b"fix 1 0\nfix 1 1\n")
        wanted = (replies[:length] + b"." * (length - len(replies)), told)
        suite.note(f"replies of {len(replies)} bytes in a room of {length}", {"room, told": wanted}, {"room, told": came})
    for line in ["x" * 4_097, "cost\n" * 1_000_001]:
        end = {"status": 7, "place": 1} if "x" in line else {"status": 8, "place": 0}
        suite.note(f"a run of {line[:4]}..", end, into_room(module, call, b".", 10, line.encode())[1])


def periods(suite: Suite, module: ModuleType, call: Call) -> None:
    """An invalid period leaves the buffer unchanged."""
    for period in [0, 1, 1_441, 65_535]:
        came = into_room(module, call, b"." * 9, period, b"cost\n")
        wanted = (b"." * 9, {"length": 0, "place": 0, "status": 9, "reason": 0, "field": 0})
        suite.note(f"period {period}", {"room, told": wanted}, {"room, told": came})
    for period in [2, 1_440]:
        suite.holds(f"period {period} is one", into_room(module, call, b"", period, b"")[1]["status"] == 0)


def moved(suite: Suite, title: str, words: Sequence[object]) -> None:
    """A local search of embedded/moves.c over a session keeps no move that raises the cost."""
    folder = TOP / "examples/two-trains"
    came = run([*words, "10", folder / "activities", folder / "times", "1000"], env={"LD_LIBRARY_PATH": str(suite.folder / "prefix/lib")})
    wanted = {"status": 0, "standard output": b"cost 3, now 3\n"}
    suite.note(title, wanted, came)


@within(240)
def installed_library(suite: Suite) -> None:
    """tools/install puts header and libraries where a linker finds them, and the crate of embedded/rust is tested with them."""
    prefix, compiler, cargo = suite.folder / "prefix", shutil.which("gcc") or shutil.which("cc"), shutil.which("cargo")
    env = {**os.environ, "PESPBENCH": str(suite.program), "HOME": str(suite.folder)}
    suite.note("tools/install", {"status": 0, "standard error": b""}, run([TOP / "tools/install", prefix], env=env))
    if not (compiler and LIBRARY.exists()):
        return
    for name in ["include/pespbench.h", "lib/libpespbench.a", "lib/libpespbench.so", "lib/pkgconfig/pespbench.pc"]:
        suite.holds(f"{name} is there, for everybody to read", os.stat(prefix / name).st_mode & 0o444 == 0o444)
    flags, source = [f"-I{prefix / 'include'}"], SOURCES / "moves.c"
    (suite.folder / "moves.c").write_bytes(source.read_bytes())
    links: List[Tuple[str, List[object]]] = [("shared", [f"-L{prefix / 'lib'}", "-lpespbench"]), ("static", [prefix / "lib/libpespbench.a"])]
    for title, link in links:
        if made(suite, f"moves.c over the {title} library", [compiler, *WARNINGS, *flags, "-o", suite.folder / title, suite.folder / "moves.c", *link]):
            moved(suite, f"moves over the {title} library", [suite.folder / title])
    if shutil.which("pkg-config"):
        told = run(["pkg-config", "--cflags", "--libs", "pespbench"], env={**env, "PKG_CONFIG_PATH": str(prefix / "lib/pkgconfig")})
        flags = [f"-I{prefix}/include", f"-L{prefix}/lib", "-lpespbench"]
        suite.note("what pkg-config tells", {"told": [flag.encode() for flag in flags]}, {"told": told["standard output"].split()})
        told = run(["pkg-config", "--modversion", "pespbench"], env={**env, "PKG_CONFIG_PATH": str(prefix / "lib/pkgconfig")})
        suite.note("the version that it tells", {"standard output": f"{VERSION}\n".encode()}, told)
    words = [sys.executable, "-B", "-c", "from pespbench import Bench; print(Bench.open(None, engine='library').program)"]
    paths = {"PYTHONPATH": str(prefix / "share/pespbench/python"), "PATH": "/usr/bin:/bin", "PESPBENCH": "", "PESPBENCH_LIB": ""}
    came = run(words, env={**env, **paths})
    wanted = {"status": 0, "standard output": f"{prefix / 'lib/libpespbench.so'}\n".encode()}
    suite.note("the library that the installed Python package finds", wanted, came)
    if cargo:
        shutil.copytree(SOURCES / "rust", suite.folder / "rust")
        env = {**os.environ, "PESPBENCH_LIB": str(prefix / "lib")}
        suite.note("the crate's own tests", {"status": 0}, run([cargo, "test", "--offline", "--quiet", "--target-dir", suite.folder / "target"], cwd=suite.folder / "rust", env=env, seconds=200))


GROUPS = [embedded, installed_library]
