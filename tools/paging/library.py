"""The library in process, and its LLVM module, from which the page's is made.

The toolchain's rattle proves the library, or uses its stored proof, and gives its clang one LLVM module; a clang of ours
passes that on, and keeps it. The libraries below are those left by the gate, if it ran since their sources changed, and
otherwise `rt lib` builds them first.
"""

import pathlib
import shlex
import shutil
import tempfile
from typing import List, Sequence

from paging.tree import LIBRARY, TOP, NotMade, below, crates, run, toolchain

CRATE = TOP / "crates" / LIBRARY
MADE = CRATE / f"out/lib{LIBRARY}.a"
MODULE = CRATE / f"out/{LIBRARY}.bc"


def rlib(name: str) -> pathlib.Path:
    """A library that this one depends on, as built by rattle."""
    return TOP / "crates" / name / "out/rlib" / f"{name}.rlib"


def changed_at(name: str, parts: Sequence[str] = ("src", "specs")) -> float:
    """When a source of the crate was last changed, added or removed."""
    folders = [TOP / "crates" / name / part for part in parts if (TOP / "crates" / name / part).exists()]
    return max(path.stat().st_mtime for folder in folders for path in [folder, *folder.rglob("*")])


def is_of_the_gate(name: str) -> bool:
    """Whether the gate has left the library, built from the present sources; a build by other commands has a stamp."""
    built = rlib(name)
    is_there = built.is_dir() and not built.with_name("stamp").exists()
    return is_there and built.stat().st_mtime >= changed_at(name, ("src", "specs", "proofs"))


def is_built() -> bool:
    """Whether the library and its module were built since the last change of a source."""
    last = max([(TOP / "crates.txt").stat().st_mtime, *map(changed_at, [LIBRARY, *below(LIBRARY)])])
    return all(path.is_file() and path.stat().st_mtime >= last for path in (MADE, MODULE))


def keeping_toolchain(folder: pathlib.Path, kit: pathlib.Path) -> None:
    """A toolchain whose clang keeps its input in `folder`/kept. Rattle calls it without an environment."""
    (folder / "kept").mkdir()
    (folder / "bin").mkdir()
    (folder / "lib").symlink_to(kit / "toolchain/lib")
    for path in (kit / "toolchain/bin").iterdir():
        if path.name != "clang":
            (folder / "bin" / path.name).symlink_to(path)
    kept, clang = shlex.quote(str(folder / "kept")), shlex.quote(str(kit / "toolchain/bin/clang"))
    script = f'#!/bin/sh\nfor word in "$@"; do\n    [ ! -f "$word" ] || cp "$word" {kept}/\ndone\nexec {clang} "$@"\n'
    (folder / "bin/clang").write_text(script)
    (folder / "bin/clang").chmod(0o755)


def words_of_build(kit: pathlib.Path, folder: pathlib.Path) -> List[object]:
    """Like the call of rattle in `rt lib`."""
    known = crates()
    words: List[object] = ["--crate-name", LIBRARY, "src/lib.rt", "--extern", f"std={kit}/rlibs/std.rlib", "-L", f"dependency={kit}/rlibs"]
    for name in known[LIBRARY]:
        path = rlib(name) if name in known else kit / "rlibs" / f"{name}.rlib"
        words += ["--extern", f"{name}={path}"]
    for name in below(LIBRARY):
        words += ["-L", f"dependency={rlib(name).parent}"]
    words += ["--antt-project", kit / "rattle/logic/antt-project.json", "--logic-built", kit / "logic_built"]
    words += ["--jobs", "2", "--links", f"{LIBRARY}=", "--crate-type", "staticlib", "--incremental", "out/incremental"]
    return [*words, "--toolchain", folder, "--backend", "llvm", "-o", folder / MADE.name]


def build() -> None:
    """Builds the library, and keeps its module."""
    if not all(map(is_of_the_gate, below(LIBRARY))):
        run(["rt", "lib"], cwd=CRATE)
    (CRATE / "out").mkdir(exist_ok=True)
    with tempfile.TemporaryDirectory() as name:
        folder, kit = pathlib.Path(name), toolchain()
        keeping_toolchain(folder, kit)
        run([kit / "bin/rattle", "build", *words_of_build(kit, folder)], cwd=CRATE)
        kept = list((folder / "kept").glob("*.bc"))
        if len(kept) != 1:
            raise NotMade(f"rattle gave clang {len(kept)} modules, and not one")
        for made, path in [(kept[0], MODULE), (folder / MADE.name, MADE)]:
            shutil.copyfile(made, path)


def built_library() -> pathlib.Path:
    """The library, rebuilt if a source has changed since."""
    if not is_built():
        build()
    return MADE


def built_module() -> pathlib.Path:
    """Its LLVM module."""
    if not is_built():
        build()
    return MODULE
