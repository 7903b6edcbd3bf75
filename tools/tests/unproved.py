"""The script that starts the program, told to make one without a proof; the stand-in answers."""

import os
import re
import shutil
import subprocess
import sys
from typing import Any, Dict, List, Sequence

from tests.file_cases import TWO
from tests.harness import TOP, Suite, run
from tests.start_tree import Tree

NOT_PROVED = b"tools/pespbench: made of the page's module: nothing of what it answers is proved\n"
MAKING = b"tools/pespbench: making the program of the page's module, once, which takes a minute\n"
# It records its call, and makes the stand-in, or fails.
FAKE_NATIVE = """import os, pathlib, sys
open(os.environ["FAKE"] + "/made", "a").write("m")
if os.path.exists(os.environ["FAKE"] + "/fails"):
    print("there is no wasm2c (apt install wabt)")
    sys.exit(1)
path = pathlib.Path(sys.argv[1], "pespbench")
path.write_text("#!/bin/sh\\nexec '{python}' '{stand_in}' \\"$@\\"\\n")
path.chmod(0o755)
"""


def a_tree(suite: Suite) -> Tree:
    tree = Tree(suite)
    (tree.top / "tools/native").mkdir()
    (tree.top / "tools/native/__main__.py").write_text(FAKE_NATIVE.format(python=sys.executable, stand_in=TOP / "tools/tests/stand_in.py"))
    (tree.top / "tools/packing").mkdir()
    (tree.top / "tools/packing/want").write_text("#!/bin/sh\n")
    (tree.top / "tools/packing/want").chmod(0o755)
    (tree.top / "page").mkdir()
    (tree.top / "page/pespbench.html").write_text("<p>")
    return tree


def made_of(tree: Tree) -> int:
    """How often a program was made."""
    path = tree.fake / "made"
    return len(path.read_text()) if path.exists() else 0


def case(tree: Tree, name: str, words: Sequence[object], told: bytes = NOT_PROVED, **given: Any) -> None:
    """A start without a proof in the suite's folder."""
    wanted = {"status": given.pop("status", 0), "standard output": given.pop("output", b"")}
    come = run([tree.link, "--unproved", *words], cwd=tree.suite.folder, env=tree.environment, **given)
    begins = {"begins": told} if come["standard error"].startswith(told) else {"begins": come["standard error"]}
    tree.suite.note(f"tools/pespbench --unproved: {name}", {**wanted, "begins": told}, {**come, **begins})


def unproved(suite: Suite) -> None:
    """It is made once, without the toolchain, and again if the page is newer; words, streams and statuses are the program's."""
    tree = a_tree(suite)
    (suite.folder / "activities").write_bytes(TWO)
    two: List[object] = ["--period", "10", "activities"]
    case(tree, "the first start", two, MAKING + NOT_PROVED, given=b"fix 1 0\ndomain 2\n", output=b"ok\n2: 4 5\n")
    case(tree, "the next one", two, given=b"cost\n", output=b"refused 11 event 1 has no time\n")
    case(tree, "a check", ["--check", "--period=10", "/dev/stdin"], given=b"", output=b"tensions 0\nviolations 0\ncost 0\n")
    case(tree, "refused words", ["--period", "1"], status=2)
    suite.note("programs that were made", {"made": 1, "calls": []}, {"made": made_of(tree), "calls": tree.calls()})
    later = os.stat(tree.top / "tools/native/out/pespbench").st_mtime + 1
    os.utime(tree.top / "page/pespbench.html", (later, later))
    tree.say("fails", True)
    case(tree, "a program that cannot be made", two, MAKING + b"tools/pespbench: there is no wasm2c (apt install wabt)\n", status=70)
    tree.say("fails", False)
    case(tree, "a page that changed", [], MAKING + NOT_PROVED, given=b"cost\n", output=b"cost 0\n")
    left = sorted(path.name for path in (tree.top / "tools/native/out").iterdir())
    suite.note("what is left beside it", {"names": ["pespbench"], "made": 3}, {"names": left, "made": made_of(tree)})


def unproved_lines(suite: Suite) -> None:
    """Each reply arrives before the next line is sent."""
    tree = a_tree(suite)
    words, pipe = [str(tree.link), "--unproved"], subprocess.PIPE
    with subprocess.Popen(words, env=tree.environment, stdin=pipe, stdout=pipe, stderr=subprocess.DEVNULL) as process:
        assert process.stdin is not None and process.stdout is not None
        for line, reply in [(b"add event 1\n", b"ok\n"), (b"cost\n", b"refused 11 event 1 has no time\n")]:
            process.stdin.write(line)
            process.stdin.flush()
            suite.note(f"tools/pespbench --unproved: {line!r}", {"reply": reply}, {"reply": process.stdout.readline()})
        process.stdin.close()


# Instead of Debian's tool: it records its words, and installs the command at the second call of two.
FAKE_APT = """#!/bin/sh
echo "$@" >>"$FAKE/apt"
[ "$1" = install ] && [ -e "$FAKE/list" ] && printf '#!/bin/sh\\n' >"$FAKE/wanted" && chmod +x "$FAKE/wanted"
[ "$1" = update ] && : >"$FAKE/list"
[ -e "$FAKE/wanted" ]
"""


def wanted_commands(suite: Suite) -> None:
    """A missing command is installed by the superuser, and otherwise its package is named."""
    fake, want = suite.folder / "fake", TOP / "tools/packing/want"
    fake.mkdir()
    env = {"PATH": f"{fake}:/usr/bin:/bin", "FAKE": str(fake)}
    for name, text in [("apt-get", FAKE_APT), ("id", "#!/bin/sh\necho 1000\n")]:
        (fake / name).write_text(text)
        (fake / name).chmod(0o755)
    suite.note("a command that is there", {"status": 0, "standard error": b""}, run([want, "sh", "dash"], env=env))
    told = b"tools/pespbench: there is no command wanted (apt install package)\n"
    suite.note("a user", {"status": 1, "standard error": told}, run([want, "wanted", "package"], env=env))
    suite.holds("who installs nothing", not (fake / "apt").exists())
    (fake / "id").write_text("#!/bin/sh\necho 0\n")
    told = b"tools/pespbench: there is no command wanted, so Debian's package package is installed\n"
    suite.note("the superuser", {"status": 0, "standard error": told}, run([want, "wanted", "package"], env=env))
    calls = ["install -y --no-install-recommends package", "update", "install -y --no-install-recommends package"]
    suite.note("who installs it", {"calls": calls}, {"calls": (fake / "apt").read_text().splitlines()})


def bare(suite: Suite, *hidden: str) -> Dict[str, str]:
    """An environment with only the commands of a basic Debian, and a user who may not install any."""
    folder = suite.folder / "-".join(["bare", *hidden])
    folder.mkdir()
    for name in {"sh", "cat", "dirname", "env", "readlink", "python3"} - set(hidden):
        found = shutil.which(name)
        assert found is not None
        (folder / name).symlink_to(found)
    (folder / "id").write_text("#!/bin/sh\necho 1000\n")
    (folder / "id").chmod(0o755)
    return {"PATH": str(folder)}


def first_commands(suite: Suite) -> None:
    """The two commands at the top of README name what they lack, if nothing may be installed."""
    come = run([TOP / "tools/pespbench", "--module"], env=bare(suite), given=b"domains\n")
    told = b"tools/pespbench: the page's module runs, under Node: nothing of what it answers is proved\n"
    told += b"tools/pespbench: there is no command node (apt install nodejs)\n"
    suite.note("tools/pespbench --module without Node", {"status": 70, "standard output": b"", "standard error": told}, come)
    come = run([TOP / "tools/test"], env=bare(suite, "python3"))
    told = b"tools/test: there is no command python3 (apt install python3)\n"
    suite.note("tools/test without Python", {"status": 70, "standard output": b"", "standard error": told}, come)
    come = run([TOP / "tools/test", "--only", "helping_start"], env={**bare(suite, "node"), "HOME": str(suite.folder)})
    told = b"tools/test: there is no command node (apt install nodejs)\n"
    lines = b"tools/test: there is no node, so 1 parts were not tried\ntools/test: nothing of this was proved\n0 passed, 0 failed\n"
    wanted = {"status": 1, "standard error": told, "ends": lines}
    suite.note("tools/test without Node", wanted, {**come, "ends": come["standard output"][-len(lines):]})


# In the place of the toolchain: it notes its words, and ends when it may.
FAKE_TOOLCHAIN = """#!/bin/sh
echo "$@" >"$FAKE/words"
until [ -e "$FAKE/go" ]; do sleep 0.05; done
echo "a test ... ok"
"""


def quick_tests(suite: Suite) -> None:
    """tools/test says from the first what runs, is done and waits; its limits of time are multiplied, and an unknown part is named."""
    wanted = {"status": 2, "standard output": b""}
    for words, told in [
        (["--only", "nothing"], "there is no part 'nothing'; --list names them\n"),
        (["--only", "helping", "--only", "drawn_stream"], "there is no part 'drawn_stream'; there is 'drawn_streams'\n"),
        (["--patience", "0"], "argument --patience: invalid positive value: '0'\n"),
    ]:
        come = run([TOP / "tools/test", *words])
        suite.note(f"tools/test {words}", {**wanted, "told": f"tools/test: error: {told}"}, {**come, "told": come["standard error"].decode().partition("\n")[2]})
    (suite.folder / "rt").write_text(FAKE_TOOLCHAIN)
    (suite.folder / "rt").chmod(0o755)
    env = {**os.environ, "PATH": f"{suite.folder}:{os.environ['PATH']}", "FAKE": str(suite.folder)}
    words = [str(TOP / "tools/test"), *"--only pesp_tests_core --only pesp_tests_text --jobs 1 --patience 3".split()]
    with subprocess.Popen(words, env=env, stdout=subprocess.PIPE, text=True) as process:
        assert process.stdout is not None
        first = [process.stdout.readline() for _ in range(2)]
        given = (suite.folder / "words").read_text()
        (suite.folder / "go").touch()
        rest = process.stdout.read().splitlines()
    lines = ["tools/test: nothing is proved here; .ci/run proves everything", "tools/test: 0 of 2 parts are done, 1 wait, and these run: pesp_tests_text (S s)"]
    suite.note("before anything is done", {"lines": lines, "given": "try --test --seconds 900\n"}, {"lines": timeless(first), "given": given})
    lines = [f"pesp_tests_{name}: 1 passed, 0 failed, S s" for name in ("text", "core")]
    suite.note("what is done", {"lines": [*lines, "tools/test: nothing of this was proved", "2 passed, 0 failed"]}, {"lines": timeless(rest)})
    for patience, status in [("1", "none within 1 seconds"), ("60", 0)]:
        come_late = f"import sys; sys.path[:0] = ['{TOP / 'tools'}']; from tests.harness import run; print(run(['sleep', '3'], seconds=1)['status'])"
        come = run([sys.executable, "-B", "-c", come_late], env={**os.environ, "PESPBENCH_PATIENCE": patience})
        suite.note(f"a run at patience {patience}", {"standard output": f"{status}\n".encode()}, come)


def timeless(lines: Sequence[str]) -> List[str]:
    """The lines without their seconds."""
    return [re.sub(r"[\d.]+ s\b", "S s", line.rstrip("\n")) for line in lines]


GROUPS = [unproved, unproved_lines, wanted_commands, first_commands, quick_tests]
