"""Program and libraries, compiled from the page's module."""

import json
import pathlib
import shutil
import subprocess
import tempfile
from typing import List, Sequence

from native.translating import parts
from paging.tree import MADE, TOP, VERSION, NotMade, run

SOURCES = TOP / "tools/native"
PROGRAM, LIBRARY = ["words.c", "program.c"], ["library.c", "runtime.c"]
# This many processes compile in parallel, one for each part.
PARTS = 4
# No address outside the memory can be read, so loads are not checked one by one; asserts are of a runtime that is not used.
FLAGS = ["-O2", "-fPIC", "-fvisibility=hidden", "-fno-strict-aliasing", "-w", "-DNDEBUG", "-DWASM_RT_MEMCHECK_SIGNAL_HANDLER=1"]
FLAGS += ["-DWASM_RT_SKIP_SIGNAL_RECOVERY=1"]
FILES = ["pespbench", "libpespbench.a", "libpespbench.so"]
# The required commands, and their Debian packages.
WANTED = {"wasm2c": "wabt", "ar": "binutils"}


def objects(sources: Sequence[pathlib.Path], compiler: str, folder: pathlib.Path) -> List[pathlib.Path]:
    """The objects of the sources, compiled in parallel."""
    words = [compiler, *FLAGS, f"-I{folder}", f"-I{SOURCES}", f"-I{TOP / 'embedded'}", "-c"]
    made = [folder / f"{source.stem}.o" for source in sources]
    several = [subprocess.Popen([*words, "-o", to, source], stderr=subprocess.PIPE) for source, to in zip(sources, made)]
    for source, each in zip(sources, several):
        told = each.communicate()[1].decode(errors="replace")
        if each.returncode:
            raise NotMade(f"{compiler} does not compile {source.name}: {told[-1000:]}")
    return made


def check(compiler: str) -> None:
    """Raises NotMade if a required command is missing."""
    for name, package in [*WANTED.items(), (compiler, "gcc")]:
        if not shutil.which(name):
            raise NotMade(f"there is no {name} (apt install {package})")


def texts() -> str:
    """The program's version text, for C."""
    told = {"HELP": (TOP / "tools/module/help.txt").read_text()}
    told["VERSION_TEXT"] = f"pespbench {VERSION.read_text().strip()}, made of the page's module, and not proved\n"
    return "".join(f"static const char {name}[] = {json.dumps(text)};\n" for name, text in told.items())


def make(to: pathlib.Path, compiler: str) -> None:
    """Writes `pespbench`, `libpespbench.a` and `libpespbench.so` into a folder. Raises NotMade."""
    check(compiler)
    with tempfile.TemporaryDirectory(prefix="pespbench-") as name:
        folder = pathlib.Path(name)
        (folder / "texts.h").write_text(texts())
        both = objects([*(SOURCES / name for name in [*PROGRAM, *LIBRARY]), *parts(MADE, folder, PARTS)], compiler, folder)
        rest = both[len(PROGRAM) :]
        link: List[object] = [compiler, "-o", folder / "pespbench", *both]
        share: List[object] = [compiler, "-shared", "-Wl,-soname,libpespbench.so", "-o", folder / "libpespbench.so", *rest]
        for command in [["ar", "rcs", folder / "libpespbench.a", *rest], share, link]:
            run(command)
        for file in FILES:
            shutil.copy(folder / file, to / file)
