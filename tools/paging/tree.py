"""Paths: the toolchain, and the crates below the library."""

import pathlib
import re
import shutil
import subprocess
from typing import Any, Dict, List, Sequence

TOP = pathlib.Path(__file__).resolve().parents[2]
PAGE = TOP / "page"
MADE = PAGE / "pespbench.html"
VERSION = TOP / "python/pespbench/VERSION"
LIBRARY = "pesp_embedded"


class NotMade(Exception):
    """Why the page or the module cannot be made."""


def run(words: Sequence[object], **how: Any) -> bytes:
    """Runs a command that has to succeed."""
    try:
        done = subprocess.run(list(map(str, words)), capture_output=True, check=False, **how)
    except OSError as fault:
        raise NotMade(f"{words[0]} does not start: {fault}") from fault
    if done.returncode:
        told = (done.stdout + done.stderr).decode(errors="replace").strip().splitlines()[-12:]
        raise NotMade("\n".join([f"{words[0]} ended with {done.returncode}", *told]))
    return bytes(done.stdout)


def toolchain() -> pathlib.Path:
    """The folder of the toolchain."""
    if not shutil.which("rt"):
        raise NotMade("there is no command rt")
    return pathlib.Path(run(["rt", "doc"]).decode().split()[0]).parent


def crates() -> Dict[str, List[str]]:
    """Each crate with its dependencies, by crates.txt."""
    rows = re.findall(r"^(\w+)(?: +\w+)*:(.*)$", (TOP / "crates.txt").read_text(), re.M)
    return {name: names.split() for name, names in rows}


def below(name: str) -> List[str]:
    """All crates of the repository on which this one depends."""
    known, found, left = crates(), set(), [name]
    while left:
        more = [each for each in known[left.pop()] if each in known and each not in found]
        found.update(more)
        left += more
    return sorted(found)
