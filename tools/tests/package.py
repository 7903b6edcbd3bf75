"""The tests of the Python package, each of which is a case here; and type checks, of all of it and of tools/."""

import configparser
import importlib.util
import os
import shutil
import subprocess
import sys
from pathlib import Path
from typing import Callable, Dict, List, Sequence

from tests.embedded import shared_library
from tests.harness import TOP, Suite, patient, within

PYTHON, TOOLS = TOP / "python", TOP / "tools"
# Debian's own Python, for which its packages are made.
SYSTEM = "/usr/bin/python3"


def environment(suite: Suite) -> Dict[str, str]:
    return {**os.environ, "PESPBENCH": str(suite.program), "PYTHONDONTWRITEBYTECODE": "1", "PYTHONPATH": str(PYTHON)}


def run_tests(suite: Suite, modules: Sequence[str], python: str = sys.executable, warnings: str = "error") -> None:
    """Counts each test of modules of python/tests; a skipped one is reported, and not a case.

    They ended normally even if all were skipped.
    """
    command, library = [python, "-W", warnings, "-m", "tests", *modules], shared_library(suite)
    env = {**environment(suite), **({"PESPBENCH_LIB": str(library)} if library else {})}
    with subprocess.Popen(command, cwd=PYTHON, env=env, stdout=subprocess.PIPE, text=True) as process:
        told = 0
        assert process.stdout is not None
        for line in process.stdout:
            word, _, name = line.rstrip().partition(" ")
            is_told = word in ("passed", "failed", "skipped") and name.startswith("tests.")
            told += is_told
            if is_told and word != "skipped":
                suite.holds(f"python: {name}", word == "passed")
            elif line.strip():
                print(f"  {line.rstrip()}", flush=True)
    suite.holds(f"python: the tests of {' '.join(modules)} ran to their end", told and process.returncode in (0, 1))


def modules(*names: str) -> List[str]:
    """The modules of python/tests except these; none if a named one is missing."""
    found = [f"tests.{path.stem}" for path in sorted((PYTHON / "tests").glob("test_*.py"))]
    return [name for name in found if name not in names]


def a_group(name: str) -> Callable[[Suite], None]:
    @within(240)
    def group(suite: Suite) -> None:
        run_tests(suite, [name])

    group.__name__ = name.replace("tests.test_", "python_")
    return group


@within(480)
def python_dask(suite: Suite) -> None:
    """The tests with Dask, by Debian's Python, which alone finds Debian's package."""
    has_dask = subprocess.run([SYSTEM, "-c", "import distributed"], capture_output=True).returncode == 0
    if has_dask:
        # Debian's Dask calls deprecated functions of its own libraries.
        run_tests(suite, ["tests.test_dask"], SYSTEM, warnings="ignore")
    else:
        print("  nothing was tried over Dask: python3-distributed is not installed")


@within(240)
def python_habits(suite: Suite) -> None:
    """The tests with tables, also with pandas, numpy and networkx if Debian's Python has them."""
    has_pandas = subprocess.run([SYSTEM, "-c", "import networkx, pandas"], capture_output=True).returncode == 0
    if not has_pandas:
        print("  nothing was tried over pandas and networkx: python3-pandas and python3-networkx are not installed")
    run_tests(suite, ["tests.test_habits"], SYSTEM if has_pandas else sys.executable)


# A job of MPI as the superuser of a container, on fewer processors than it has processes.
ANYWHERE = {"OMPI_ALLOW_RUN_AS_ROOT": "1", "OMPI_ALLOW_RUN_AS_ROOT_CONFIRM": "1", "OMPI_MCA_rmaps_base_oversubscribe": "1"}
OVER_MPI = "mpiexec -n 8 python3 -m mpi4py.futures examples/on_a_cluster.py examples/two-changes mpi".split()


@within(240)
def python_mpi(suite: Suite) -> None:
    """The example of many variants prints the same over MPI and over this machine's processors, by Debian's Python."""
    surroundings = {**environment(suite), **ANYWHERE, "PATH": f"/usr/bin:{os.environ['PATH']}"}
    starts = ["mpiexec", "-n", "2", SYSTEM, "-c", "import mpi4py.MPI"]
    if not shutil.which("mpiexec") or subprocess.run(starts, env=surroundings, capture_output=True).returncode:
        print("  nothing was tried over MPI: it is not installed, or does not start here")
        return
    told = []
    for words in [[SYSTEM, *OVER_MPI[6:-1]], OVER_MPI]:
        told.append(subprocess.run(words, cwd=TOP, env=surroundings, stdout=subprocess.PIPE, timeout=patient(100)).stdout)
    suite.holds("python: examples/on_a_cluster.py tells something", told[0].count(b"\n") == 9)
    suite.holds("python: examples/on_a_cluster.py tells the same over MPI", told[0] == told[1])


def pass_types(suite: Suite, name: str, folder: Path, words: Sequence[str]) -> None:
    """Checks the types of a folder, with these words or with the settings in it."""
    mypy = shutil.which("mypy")
    if mypy is None and importlib.util.find_spec("mypy") is None:
        print("  no type checker was tried: mypy is not installed")
        return
    command = [mypy] if mypy else [sys.executable, "-m", "mypy"]
    came = subprocess.run([*command, *words, "--cache-dir", str(suite.folder)], cwd=folder, capture_output=True, text=True)
    suite.note(name, {"status": 0, "told": "Success"}, {"status": came.returncode, "told": came.stdout[:7] if came.returncode == 0 else came.stdout or came.stderr})


@within(240)
def python_types(suite: Suite) -> None:
    """The package and its tests pass a type checker, at the oldest supported Python."""
    pass_types(suite, "python: types", PYTHON, ["--strict", "--python-version", "3.9", "pespbench", "tests"])


@within(240)
def tools_types(suite: Suite) -> None:
    """So does all of tools/ that is in Python, as tools/mypy.ini says."""
    settings = configparser.ConfigParser()
    settings.read(TOOLS / "mypy.ini")
    held = [name.strip() for name in settings["mypy"]["files"].split(",")]
    written = [path.relative_to(TOOLS) for path in TOOLS.rglob("*") if path.is_file() and is_python(path)]
    free = [str(path) for path in written if not {str(path), path.parts[0]} & set(held)]
    suite.note("tools: what has no types", {"files": []}, {"files": free})
    pass_types(suite, "tools: types", TOOLS, [])


def is_python(path: Path) -> bool:
    """Whether a file is a module, or a script of Python."""
    return path.suffix == ".py" or not path.suffix and path.read_bytes()[:50].startswith(b"#!/usr/bin/env python3\n")


def python_package(suite: Suite) -> None:
    """The package uses only the standard library, compiles with each installed Python, and contains no compiled files."""
    for path in sorted((PYTHON / "pespbench").rglob("*.py")):
        text = path.read_text()
        lines = [line.split() for line in text.splitlines() if line.startswith(("import ", "from "))]
        roots = {words[1].split(".")[0].rstrip(",") for words in lines}
        foreign = {root for root in roots if root not in STANDARD | {"pespbench", "__future__"}}
        suite.note(f"python: {path.name} stands on the standard library", {"foreign": set()}, {"foreign": foreign})
        suite.holds(f"python: {path.name} has at most 300 lines", len(text.splitlines()) <= 300)


STANDARD = set(getattr(sys, "stdlib_module_names", ())) or {"argparse"}

GROUPS = [*map(a_group, modules("tests.test_dask", "tests.test_habits")), python_dask, python_habits, python_mpi, python_types, tools_types, python_package]
