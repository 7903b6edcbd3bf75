"""The promises of tools/install on PREFIX, links, readers, and two at once; and where the command searches for modules."""

import ctypes
import os
import random
import shutil
import subprocess
import sys
from pathlib import Path
from typing import Any, Dict, List, Tuple

from tests.harness import NOT_READ, NOT_WRITTEN, TOP, VERSION, VERSION_NUMBER, Came, Suite, patient, run, within
from tests.prices import draws_prices
from tests.streams import drawn_lines

INSTALL = TOP / "tools/install"
TWO = TOP / "examples/two-trains/activities"
ANSWER = b"optimum 4 2\n1 0\n2 4\n"


def surroundings(suite: Suite, **more: str) -> Dict[str, str]:
    return {"PATH": os.environ["PATH"], "HOME": str(suite.folder), "PESPBENCH": str(suite.program), **more}


def install(suite: Suite, *words: object, **how: Any) -> Came:
    return run([INSTALL, *words], env=surroundings(suite), **how)


def searched(suite: Suite, prefix: Path, command: str = "bin/pespbench-py", **how: Any) -> Came:
    """The result of the installed command, with the installed program."""
    env = surroundings(suite, **{"PESPBENCH": "", **how.pop("env", {})})
    return run([prefix / command, "search", "--period", "10", TWO], env=env, **how)


def is_whole(suite: Suite, title: str, prefix: Path) -> None:
    """The package that is installed is that of the tree."""
    package = prefix / "share/pespbench/python/pespbench"
    wanted = {str(path.relative_to(TOP / "python/pespbench")): path.read_bytes() for path in (TOP / "python/pespbench").rglob("*.py")}
    came = {str(path.relative_to(package)): path.read_bytes() for path in package.rglob("*.py")}
    suite.holds(f"{title}: the package is whole", came == wanted)
    suite.note(f"{title}: nothing is left beside it", {"entries": ["python"]}, {"entries": os.listdir(package.parents[1])})


@within(240)
def installed_command(suite: Suite) -> None:
    """The installed command uses no module of its current folder, or of one in the environment."""
    prefix = suite.folder / "prefix"
    suite.note("tools/install", {"status": 0, "standard error": b""}, install(suite, prefix))
    strangers = suite.folder / "strangers"
    (strangers / "pespbench").mkdir(parents=True)
    for name in ["csv.py", "argparse.py", "runpy.py", "sitecustomize.py", "pespbench/__init__.py", "pespbench/__main__.py"]:
        (strangers / name).write_text("import os\nos.write(1, b'a stranger was here')\nos._exit(3)\n")
    wanted = {"status": 0, "standard output": ANSWER}
    suite.note("the command in a folder of strangers", wanted, searched(suite, prefix, cwd=strangers))
    env = {"PYTHONPATH": f"{strangers}:", "PYTHONSTARTUP": str(strangers / "csv.py")}
    suite.note("the command where PYTHONPATH names it", wanted, searched(suite, prefix, env=env, cwd=strangers))
    parts = [prefix / "bin/pespbench-py", "search", "--parts", "--workers", "2", "--period", "10", TWO]
    suite.note("the command with workers there", wanted, run(parts, env=surroundings(suite, PESPBENCH=""), cwd=strangers))


@within(240)
def installed_prefixes(suite: Suite) -> None:
    """PREFIX with characters that a shell or a search path interprets, and an empty one."""
    for name in ["a:b", "two words", "it's $HOME", "./-n"]:
        suite.note(f"tools/install {name}", {"status": 0, "standard error": b""}, install(suite, name, cwd=suite.folder))
        prefix = suite.folder / name
        suite.note(f"the command in {name}", {"status": 0, "standard output": ANSWER}, searched(suite, prefix))
    for words in [[""], ["a\nb"], ["a", "b"]]:
        suite.note(f"tools/install {words}", {"status": 1, "standard output": b""}, install(suite, *words, cwd=suite.folder))
    for words in [["-x"], ["--help=x"], ["--"], ["a", "-x"]]:
        wanted = {"status": 2, "standard output": b"", "made": False}
        suite.note(f"tools/install {words}", wanted, {**install(suite, *words, cwd=suite.folder), "made": (suite.folder / words[-1]).exists()})
    suite.holds("nothing is installed at home then", not (suite.folder / ".local").exists())
    env = {name: value for name, value in surroundings(suite).items() if name != "HOME"}
    suite.note("tools/install without HOME", {"status": 1}, run([INSTALL], env=env))
    came = run([INSTALL, suite.folder / "none"], env=surroundings(suite, PESPBENCH="/no/program"))
    suite.note("tools/install of a program that is not there", {"status": 1, "made": False}, {**came, "made": (suite.folder / "none").exists()})


@within(240)
def installed_links(suite: Suite) -> None:
    """Nothing is written or deleted through a link instead of a file or of the package."""
    victim = suite.folder / "victim"
    (victim / "python/pespbench").mkdir(parents=True)
    (victim / "python/pespbench/mine.py").write_text("mine\n")
    (victim / "command").write_text("mine\n")
    for place in ["share/pespbench", "share/pespbench/python"]:
        prefix = suite.folder / place.replace("/", "-")
        (prefix / place).parent.mkdir(parents=True)
        (prefix / place).symlink_to(victim)
        came = install(suite, prefix)
        suite.note(f"a link in the place of {place}", {"status": 1, "told": True}, {**came, "told": b"is a link" in came["standard error"]})
        suite.holds(f"nothing is installed beside it, {place}", not (prefix / "bin").exists())
    prefix = suite.folder / "prefix"
    (prefix / "bin").mkdir(parents=True)
    for name in ["pespbench", "pespbench-py"]:
        (prefix / "bin" / name).symlink_to(victim / "command")
    suite.note("links in the place of both commands", {"status": 0}, install(suite, prefix))
    suite.note("the command in their place", {"standard output": ANSWER}, searched(suite, prefix))
    left = {"command": (victim / "command").read_text(), "module": (victim / "python/pespbench/mine.py").read_text()}
    suite.note("what the links led to", {"command": "mine\n", "module": "mine\n"}, left)
    other = suite.folder / "other"
    other.mkdir()
    (suite.folder / "linked").mkdir()
    (suite.folder / "linked/bin").symlink_to(other)
    suite.note("a folder of commands that is a link", {"status": 0}, install(suite, suite.folder / "linked"))
    suite.note("the command there", {"standard output": ANSWER}, searched(suite, other, "pespbench-py"))


def installed_for_all(suite: Suite) -> None:
    """Everybody can read what is installed under a umask of 077."""
    prefix = suite.folder / "prefix"
    suite.note("tools/install by a careful user", {"status": 0}, install(suite, prefix, preexec_fn=lambda: os.umask(0o077)))
    wanted = {path: 0o055 if path.is_dir() or path.parent.name == "bin" else 0o044 for path in [prefix, *prefix.rglob("*")]}
    wrong = [str(path) for path, mode in wanted.items() if path.stat().st_mode & mode != mode]
    suite.note("what others cannot read", {"paths": []}, {"paths": wrong})


@within(240)
def installed_at_once(suite: Suite) -> None:
    """However many install at once, all succeed, and one complete package results."""
    prefix = suite.folder / "prefix"
    for turn in range(3):
        several = [subprocess.Popen([INSTALL, prefix], env=surroundings(suite), stdout=subprocess.DEVNULL, stderr=subprocess.PIPE) for _ in range(4)]
        told = [(each.communicate(timeout=patient(100))[1], each.returncode) for each in several]
        suite.note(f"four at once, {turn}", {"told": [(b"", 0)] * 4}, {"told": told})
        is_whole(suite, f"four at once, {turn}", prefix)


# The commands that --module needs besides Python.
WANTED = ("wasm2c", "gcc")
STREAMS, LINES = 200, 40


@within(480)
def installed_module(suite: Suite) -> None:
    """Program and library of the page's module behave like the program, and report that nothing of them is proved."""
    missing = [name for name in WANTED if not shutil.which(name)]
    if missing:
        print(f"  nothing was installed of the page's module: there is no {missing[0]}")
        return
    prefix = suite.folder / "prefix"
    came = install(suite, "--module", prefix, seconds=400)
    suite.note("tools/install --module", {"status": 0, "standard error": b""}, came)
    is_whole(suite, "tools/install --module", prefix)
    made = prefix / "bin/pespbench"
    told = f"pespbench {VERSION}, made of the page's module, and not proved\n".encode()
    for word in ["--version", "-V"]:
        suite.note(f"the version by {word}", {"status": 0, "standard output": told}, run([made, word]))
    suite.note("that of its library", {"version": VERSION_NUMBER}, {"version": ctypes.CDLL(str(prefix / "lib/libpespbench.so")).pesp_version()})
    suite.holds("pkg-config says that nothing is proved", "not proved" in (prefix / "lib/pkgconfig/pespbench.pc").read_text())
    suite.note("the command over it", {"status": 0, "standard output": ANSWER}, searched(suite, prefix))
    same_streams(suite, made)
    same_words(suite, made)
    callers_of_module(suite, prefix)
    suite.note("tools/install --remove", {"status": 0}, install(suite, "--remove", prefix))
    suite.note("what is left then", {"files": []}, {"files": [str(path) for path in prefix.rglob("*") if not path.is_dir()]})


def same_streams(suite: Suite, made: Path) -> None:
    """Random runs, each with searches, return the program's bytes."""
    draw = random.Random(8_501)
    for number in range(STREAMS):
        period = draw.randint(2, 12)
        given = b"".join(line + b"\n" for line in drawn_lines(draw, period, LINES))
        words = ["--period", str(period)]
        suite.note(f"drawn stream {number}, {given!r}", run([suite.program, *words], given=given), run([made, *words], given=given))


def same_words(suite: Suite, made: Path) -> None:
    """Words, files and streams that are refused, faulty or closed."""
    crossed, lines = suite.file("crossed", b"1; 1; 2; 5; 3; 2\n"), b"x" * 4_096 + b"\n" + b"y" * 4_097
    faulty: List[List[object]] = [[], ["--check", TWO], [suite.folder], ["none"], [crossed], ["--times", crossed], ["--check", "--times", TWO]]
    for words in faulty:
        suite.note(f"a run of {words}", run([suite.program, *words], given=lines), run([made, *words], given=lines))
    refused: List[List[object]] = [["-x"], ["--period"], ["--period", "1"], ["--period=60", "--period=60"], ["--check=1"], ["a", "b"], ["--times", "-x"]]
    for words in refused:
        came = run([made, *words])
        suite.note(f"refused words {words}", {"status": 2, "told": True}, {**came, "told": came["standard error"].startswith(b"error: ")})
    suite.note("help", run([suite.program, "--help"]), run([made, "--help"]))
    with open("/dev/full", "wb") as full:
        suite.note("a full device", {"status": 1, "standard error": NOT_WRITTEN}, run([made], given=b"cost\n", stdout=full))
    suite.note("standard input closed", {"status": 1, "standard error": NOT_READ}, run(["sh", "-c", 'exec "$0" <&-', made]))


def callers_of_module(suite: Suite, prefix: Path) -> None:
    """The library works for a caller in C, static and shared, and for the Python package."""
    folder = TOP / "examples/two-trains"
    links: List[Tuple[str, List[object]]] = [("shared", [f"-L{prefix / 'lib'}", "-lpespbench"]), ("static", [prefix / "lib/libpespbench.a"])]
    for title, link in links:
        libraries = {"LD_LIBRARY_PATH": str(prefix / "lib")}
        for name in ["moves", "prices"]:
            made = run(["gcc", "-O1", f"-I{prefix / 'include'}", "-o", suite.folder / f"{name}-{title}", TOP / f"embedded/{name}.c", *link])
            suite.note(f"{name}.c over the {title} library", {"status": 0, "standard error": b""}, made)
        came = run([suite.folder / f"moves-{title}", "10", folder / "activities", folder / "times", "1000"], env=libraries)
        suite.note(f"moves over the {title} library", {"status": 0, "standard output": b"cost 3, now 3\n"}, came)
        draws_prices(suite, f"prices over the {title} library", suite.folder / f"prices-{title}", env=libraries)
    script = "from pespbench import Bench; b = Bench.open('activities', period=10, engine='library'); print(b.search(9).found().cost, b.adopt().cost, b.cost())"
    paths = {"PYTHONPATH": str(prefix / "share/pespbench/python"), "PATH": os.environ["PATH"], "PYTHONDONTWRITEBYTECODE": "1"}
    came = run([sys.executable, "-c", script], cwd=folder, env=paths)
    suite.note("the Python package over it", {"status": 0, "standard output": b"4 4 4\n"}, came)


GROUPS = [installed_command, installed_prefixes, installed_links, installed_for_all, installed_at_once, installed_module]
