"""Builds the page, or compares it with the existing one."""

import argparse
import pathlib
import subprocess
from typing import List, Sequence

from paging.module import made_module, tools
from paging.packing import packed
from paging.page import assembled, module_of, packed_in
from paging.tree import LIBRARY, MADE, PAGE, TOP, NotMade, below


def sources() -> List[str]:
    """The sources of the page, by paths from the top."""
    crates = [f"crates/{name}/{part}" for name in [LIBRARY, *below(LIBRARY)] for part in ("src", "specs")]
    return ["crates.txt", "page", "python/pespbench/VERSION", "tools/page", "tools/paging", *crates]


def changed_at(paths: Sequence[str]) -> float:
    """When a source was last changed: by its commit, or now if it was changed after that; 0 if unknown."""
    words = ["git", "-C", str(TOP), "log", "-1", "--format=%ct", "--", *paths]
    told = subprocess.run(words, capture_output=True, text=True, check=False).stdout.strip()
    words = ["git", "-C", str(TOP), "status", "--porcelain", "--", *paths]
    is_changed = subprocess.run(words, capture_output=True, text=True, check=False).stdout.strip()
    if is_changed:
        files = [path for name in paths for path in ([TOP / name] if (TOP / name).is_file() else (TOP / name).rglob("*"))]
        return max((path.stat().st_mtime for path in files if path.is_file() and path != MADE), default=0)
    return float(told or 0)


def which_is_older() -> str:
    page = "page/pespbench.html"
    page_at = MADE.stat().st_mtime if changed_at([page]) == 0 else changed_at([page])
    sources_at = changed_at([*sources(), f":(exclude){page}"])
    if page_at < sources_at:
        return "the page is older than its sources: tools/page makes it anew"
    return "the page was changed after its sources, or was made by other tools than those here"


def difference(anew: bytes) -> str:
    """The differences of a page from the existing one; '' if they are equal."""
    if not MADE.is_file():
        return "there is no page/pespbench.html: tools/page makes it"
    there = MADE.read_bytes()
    if there == anew:
        return ""
    part = "the screen" if packed_in(there) == packed_in(anew) else "how the module is packed"
    if module_of(there) != module_of(anew):
        part = "the module"
    return f"page/pespbench.html differs from the page made anew, in {part}; {which_is_older()}"


def made_by(words: argparse.Namespace) -> str:
    """The tools that make the module; none for a given one."""
    return f"with the module in {words.given}" if words.given else f"made by {tools()}"


def checked(anew: bytes, made: str) -> bool:
    """Reports whether the existing page equals a new build."""
    fault = difference(anew)
    print(f"FAILED {fault}" if fault else "page/pespbench.html is the page made anew, byte for byte")
    print(made)
    print(f"{int(not fault)} passed, {int(bool(fault))} failed")
    return bool(fault)


def work(words: argparse.Namespace) -> bool:
    data = words.given.read_bytes() if words.given else made_module()
    is_page = not data.startswith(b"\0asm")
    module = module_of(data) if is_page else data
    if words.module:
        words.module.write_bytes(module)
        print(f"{words.module}: {len(module):,} bytes, {made_by(words)}")
        return False
    # In a page the module is already packed, so zopfli is not needed.
    page = assembled(PAGE, packed_in(data) if is_page else packed(module))
    if words.check:
        return checked(page, made_by(words))
    MADE.write_bytes(page)
    print(f"page/pespbench.html: {len(page):,} bytes, of which {len(module):,} are the module's, {made_by(words)}")
    return False


def main(typed: Sequence[str]) -> bool:
    parser = argparse.ArgumentParser(prog="tools/page", description="Makes page/pespbench.html.")
    parser.add_argument("--check", action="store_true", help="compare a rebuilt page with the existing one")
    parser.add_argument("--module", type=pathlib.Path, metavar="FILE", help="make only the module, into FILE")
    parser.add_argument("--with", type=pathlib.Path, metavar="FILE", dest="given", help="take this module, or that of this page, and make none")
    words = parser.parse_args(typed)
    try:
        return work(words)
    except NotMade as fault:
        print(f"tools/page: {fault}")
        if words.check:
            print("0 passed, 1 failed")
        return True
