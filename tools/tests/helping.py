"""Every tool explains itself, refuses unknown options, and does nothing else then."""

import os
import re
import shutil
from pathlib import Path
from typing import Dict, List

from tests.harness import SOME, TOP, Suite, run, within
from tests.start_tree import Tree

TOOLS = TOP / "tools"
# Instead of the toolchain: a tool that starts to prove leaves a file.
TOOLCHAIN = '#!/bin/sh\n[ "$1" = doc ] || [ "$1" = version ] || touch "$ASKED"\nexit 1\n'


def tools() -> List[Path]:
    """The files of tools/ that are started by their name."""
    return sorted(path for path in TOOLS.iterdir() if path.is_file() and os.access(path, os.X_OK))


def unexplained(told: str) -> List[str]:
    """The words and options without a text in a help of argparse, beside them or below them, and what is missing before them."""
    head, *lists = re.split(r"\n(?:positional arguments|options):\n", told)
    entries = [entry for part in lists for entry in re.split(r"\n  (?=\S)", f"\n{part.rstrip()}")[1:]]
    bare = [entry for entry in entries if not re.search(r"\S(  +|\n +)\S", entry)]
    return bare + (["what it is for"] if lists and not re.search(r"^[A-Z][^\n]*(\n[^\n]+)*[.]$", head, re.MULTILINE) else [])


def surroundings(suite: Suite, home: Path) -> Dict[str, str]:
    """An empty home, and a toolchain that proves nothing."""
    commands = suite.folder / "commands"
    commands.mkdir()
    home.mkdir()
    (commands / "rt").write_text(TOOLCHAIN)
    (commands / "rt").chmod(0o755)
    return {**os.environ, "PATH": f"{commands}:{os.environ['PATH']}", "HOME": str(home), "ASKED": str(suite.folder / "asked")}


@within(480)
def helping(suite: Suite) -> None:
    """`--help` and `-h` print the usage of a tool, with status 0; an unknown option is a fault with status 2."""
    home = suite.folder / "home"
    env = surroundings(suite, home)
    suite.holds("there are tools", len(tools()) > 15)
    for path in tools():
        if path.name == "pespbench_module" and not shutil.which("node"):
            continue
        for option in ["--help", "-h"]:
            came = run([path, option], env=env, cwd=home)
            wanted = {"status": 0, "usage": True, "standard error": b"", "unexplained": []}
            told = {"usage": b"sage: " in came["standard output"], "unexplained": unexplained(came["standard output"].decode())}
            suite.note(f"tools/{path.name} {option}", wanted, {**came, **told})
        for option in ["-x", "--no-such-option"]:
            wanted = {"status": 2, "standard output": b"", "standard error": SOME}
            suite.note(f"tools/{path.name} {option}", wanted, run([path, option], env=env, cwd=home))
        left = [str(place) for place in home.rglob("*")]
        suite.note(f"what tools/{path.name} leaves", {"made": [], "proved": False}, {"made": left, "proved": (suite.folder / "asked").exists()})


def helping_start(suite: Suite) -> None:
    """tools/pespbench builds nothing for help, the version, or an unknown option; a built program receives them."""
    tree = Tree(suite)
    (tree.top / "python/pespbench").mkdir(parents=True)
    (tree.top / "python/pespbench/VERSION").write_text("1.2.3\n")
    for words in [["--version"], ["-V"], ["--period", "10", "-V"]]:
        suite.note(f"{words} before a build", {"status": 0, "standard output": b"pespbench 1.2.3\n"}, run([tree.link, *words], env=tree.environment))
    for words in [["--help"], ["-h"], ["--period", "10", "--help"]]:
        come = run([tree.link, *words], env=tree.environment)
        suite.note(f"{words} before a build", {"status": 0, "usage": True}, {**come, "usage": b"usage: tools/pespbench" in come["standard output"]})
    for words in [["-x"], ["--period", "10", "--x"], ["--period", "-5"]]:
        come = run([tree.link, *words], env=tree.environment)
        suite.note(f"{words} before a build", {"status": 2, "standard output": b"", "standard error": SOME}, come)
    suite.note("builds for help", {"calls": []}, {"calls": tree.calls()})
    tree.say("waits", True)
    first = tree.begin()
    tree.is_half_made()
    come = run([tree.link, "--help"], env=tree.environment)
    suite.note("help while another start builds", {"status": 0, "usage": True}, {**come, "usage": b"usage: tools/pespbench" in come["standard output"]})
    tree.say("waits", False)
    first.communicate()
    for words in [["--help"], ["--version"], ["-x"], ["--period", "10", "--", "-x"]]:
        wanted = f"ran in {suite.folder} with {' '.join(words)}\n".encode()
        suite.note(f"{words} after a build", {"standard output": wanted}, run([tree.link, *words], cwd=suite.folder, env=tree.environment))


GROUPS = [helping, helping_start]
