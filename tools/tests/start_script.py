"""The script that builds the program if necessary, and starts it."""

import os
import pathlib
import shutil
import signal
import subprocess
import time
from typing import List

from tests.harness import SECONDS, TOP, Suite, patient, run
from tests.start_tree import SYSTEM, Tree

FIRST = ["building the program; the first time takes about", "minutes of a processor", "crate pesp_base is proved"]
ANEW = ["building the program anew, since a source changed", "a line of the toolchain"]
BROKEN = ["an open goal", "tools/pespbench: the program does not build"]
WAITS = "another start is building the program; this one waits for it"


def start_script(suite: Suite) -> None:
    """When the script builds, and its messages."""
    tree = Tree(suite)
    no_toolchain = ["tools/pespbench: the program is not built, and there is no command rt to build it"]
    tree.start("no toolchain", 0, status=70, output=b"", tells=no_toolchain, PATH=SYSTEM)
    tree.say("fails", True)
    tree.start("a build that fails", 1, status=70, output=b"", tells=FIRST + BROKEN)
    tree.say("fails", False)
    tree.start("the first start builds", 2, tells=FIRST)
    tree.start("the second start does not", 2)
    tree.start("a start without the toolchain", 2, PATH=SYSTEM)
    tree.change("src/main.rt")
    tree.say("fails", True)
    tree.start("a change that does not build", 3, status=70, output=b"", tells=ANEW + BROKEN)
    tree.say("fails", False)
    tree.start("a start after a change builds", 4, tells=ANEW)
    tree.start("the start after that does not", 4)
    tree.change("specs/Rules.antt")
    tree.start("a start after a change of a definition builds", 5, tells=ANEW)
    tree.change("proofs/Lemmas.antt")
    tree.start("a start after a change of a proof does not", 5)
    tree.change("src/main.rt")
    tree.say("edits", True)
    tree.start("a start during whose build a source changes builds", 6, tells=ANEW)
    tree.say("edits", False)
    tree.start("the start after that builds too", 7, tells=ANEW)
    tree.start("and the one after that does not", 7)


def shared_build(suite: Suite) -> None:
    """Two starts at once: the second waits for the build of the first."""
    tree = Tree(suite)
    tree.say("waits", True)
    first = tree.begin()
    tree.is_half_made()
    second = tree.begin()
    assert second.stderr is not None
    told = second.stderr.readline().decode()
    suite.note("the second of two starts says that it waits", {"told": f"tools/pespbench: {WAITS}\n"}, {"told": told})
    tree.say("waits", False)
    for name, process in {"first": first, "second": second}.items():
        output, _ = process.communicate(timeout=patient(SECONDS))
        come = {"status": process.returncode, "output": output}
        suite.note(f"the {name} of two starts", {"status": 0, "output": tree.ran()}, come)
    suite.holds("two starts at once share one build", len(tree.calls()) == 1)
    suite.holds("a program that runs keeps nobody waiting", not is_waited_for(tree))


def is_waited_for(tree: Tree) -> bool:
    """Whether a start that builds waits for one whose program still runs."""
    program = tree.crate / "out/pespbench"
    program.write_text('#!/bin/sh\n[ "$1" ] || exec sleep 60\n')
    running = subprocess.Popen([tree.link], env=tree.environment, stdin=subprocess.DEVNULL)
    while b"sleep" not in pathlib.Path(f"/proc/{running.pid}/cmdline").read_bytes():
        time.sleep(0.01)
    tree.change("src/main.rt")
    told = run([tree.link, "a"], env=tree.environment)["standard error"].decode()
    running.kill()
    running.wait()
    return WAITS in told


def is_alive(process: int) -> bool:
    try:
        os.kill(process, 0)
    except ProcessLookupError:
        return False
    return True


def broken_builds(suite: Suite) -> None:
    """An interrupted build ends its toolchain, and leaves only what existed before."""
    for name in ["SIGINT", "SIGTERM", "SIGHUP"]:
        # A script that starts the tests in the background ignores SIGINT, and a shell cannot trap it then.
        signal.signal(getattr(signal, name), signal.SIG_DFL)
        for has_program in (False, True):
            broken_off(suite, name, has_program)


def broken_off(suite: Suite, name: str, has_program: bool) -> None:
    """A signal to a start whose toolchain has made a part of the program, instead of an older one or of none."""
    folder = suite.folder / f"{name} {has_program}"
    folder.mkdir()
    tree = Tree(Suite(suite.program, folder, suite.tally))
    if has_program:
        tree.start("the start before", 1, tells=FIRST)
        tree.change("src/main.rt")
    tree.say("waits", True)
    process = tree.begin()
    tree.is_half_made()
    process.send_signal(getattr(signal, name))
    output, _ = process.communicate(timeout=patient(SECONDS))
    toolchain = int(tree.calls()[-1].split()[1])
    files = [path.name for path in (tree.crate / "out").iterdir()]
    wanted = {"status": 128 + getattr(signal, name), "output": b"", "toolchain": False, "files": []}
    come = {"status": process.returncode, "output": output, "toolchain": is_alive(toolchain), "files": files}
    suite.note(f"tools/pespbench: a build that {name} ends", wanted, come)
    tree.say("waits", False)
    tree.start("the start after a build that was broken off", 2 + has_program, tells=FIRST)


def look_for_sources(suite: Suite) -> None:
    """A start takes less than 20 ms more than the program, with as many files as there are sources here.

    The machine may be loaded, so the least of some starts counts, and of more if it is above that. On a machine on which
    the program here, a script of a line, takes more than a millisecond, it is 20 times as much.
    """
    tree = Tree(suite)
    for name in ["src", "specs", "proofs"]:
        for path in (TOP / "crates").glob(f"*/{name}"):
            shutil.copytree(path, tree.top / path.relative_to(TOP), dirs_exist_ok=True)
    tree.start("the first start over all sources", 1, tells=FIRST)
    starts: List[float] = []
    plain: List[float] = []
    is_soon = False
    while not is_soon and len(plain) < 400:
        starts += [time_of(tree, tree.link) for _ in range(20)]
        plain += [time_of(tree, tree.crate / "out/pespbench") for _ in range(20)]
        is_soon = min(starts) - min(plain) < max(0.020, 20 * min(plain))
    told = f"{1_000 * min(starts):.1f} ms, and the program {1_000 * min(plain):.1f} ms"
    suite.note("the look for newer sources", {"it is soon": True}, {"it is soon": is_soon or told})


def time_of(tree: Tree, command: pathlib.Path) -> float:
    """The seconds that a start takes."""
    began = time.perf_counter()
    run([command], cwd=tree.suite.folder, env=tree.environment)
    return time.perf_counter() - began


GROUPS = [start_script, shared_build, broken_builds, look_for_sources]
