"""The package of the program, and its installing."""

import os
import re
import shutil
import sys
import tarfile
from pathlib import Path
from typing import Any, Dict, Sequence, Tuple

from tests.documents import sessions
from tests.harness import NUMBERS, SOME, TOP, VERSION, VERSION_NUMBER, Came, Suite, run, within
from tests.written import headings_of, links_of

# Debian's own Python, for which its packages are made.
SYSTEM = "/usr/bin/python3"


# The files with the version, which cannot get it from elsewhere; a changelog has every version.
NAMING = ["python/pespbench/VERSION", "embedded/rust/Cargo.toml", "CHANGELOG.md", "page/pespbench.html"]
NAMING += ["crates/pesp_shell/src/version.rt", "crates/pesp_tests_shell/src/options.rt"]
# tools/library makes it.
LIBRARY = TOP / "crates/pesp_embedded/out/libpesp_embedded.a"
ANSWER = ["-o", "answer", "embedded/answer.c", "embedded/heap.c", "embedded/libpesp_embedded.a"]


def called(suite: Suite, words: Sequence[object], **how: Any) -> Came:
    """The result of a tool, with the tested program as the built one, and a stand-in for the library if that is not built."""
    env = {"PATH": os.environ["PATH"], "HOME": str(suite.folder), "PESPBENCH": str(suite.program), "PYTHONDONTWRITEBYTECODE": "1"}
    if LIBRARY.exists():
        env["PESPBENCH_LIBRARY"] = str(LIBRARY)
    else:
        env.update(PESPBENCH_LIBRARY=str(suite.file("stand-in.a", b"!<arch>\npesp_search\n")), CC="no-compiler")
    return run(words, env={**env, **how.pop("env", {})}, **how)


def git(tree: Path, *words: str) -> Came:
    """The output of git in a tree, independent of a user's settings."""
    env = {"PATH": os.environ["PATH"], "HOME": str(tree), "GIT_CONFIG_NOSYSTEM": "1"}
    return run(["git", "-C", tree, "-c", "user.name=n", "-c", "user.email=n@n", *words], env=env)


def told_of_changes() -> object:
    """The warning of tools/package on standard error: uncommitted changes of this tree are left out."""
    return SOME if git(TOP, "status", "--porcelain", "--untracked-files=no")["standard output"] else b""


@within(240)
def package(suite: Suite) -> None:
    """A package is made, is the same twice, has right checksums, and installs a working program without the tree."""
    came = [called(suite, [TOP / "tools/package", suite.folder]) for _ in range(2)]
    path = suite.folder / came[0]["standard output"].decode().strip().rpartition("/")[2]
    first = path.read_bytes()
    suite.note("tools/package", {"status": 0, "standard error": told_of_changes()}, came[0])
    called(suite, [TOP / "tools/package", suite.folder])
    suite.holds("the same files make the same package", path.read_bytes() == first)
    with tarfile.open(path) as tar:
        names = tar.getnames()
        tar.extractall(suite.folder / "unpacked")
    suite.holds("nothing that was compiled by Python is in it", not [name for name in names if name.endswith(".pyc")])
    top = next((suite.folder / "unpacked").iterdir())
    version(suite, top)
    followed(suite, top)
    parts(suite, top)
    live_links(suite, top)
    sums = run(["sha256sum", "--check", "--quiet", "SHA256SUMS"], cwd=top)
    suite.note("the sums of the package", {"status": 0, "standard output": b""}, sums)
    prefix = suite.folder / "prefix"
    suite.note("tools/install of the package", {"status": 0, "standard error": b""}, called(suite, [top / "tools/install", prefix], env={"PESPBENCH": ""}))
    installed(suite, prefix)
    suite.note("tools/install again", {"status": 0}, called(suite, [TOP / "tools/install", prefix]))
    installed(suite, prefix)


def version(suite: Suite, top: Path) -> None:
    """The name has the version."""
    suite.note("the version of a package", {"name": f"pespbench-{VERSION}-{os.uname().machine}"}, {"name": top.name})


def one_version(suite: Suite) -> None:
    """VERSION is the newest released version of the changelog, with `+unreleased` below a newer one; all others equal it."""
    headings = re.findall(r"^## ([\d.]+), (.+)", (TOP / "CHANGELOG.md").read_text(), re.M)
    released = next(number for number, day in headings if re.fullmatch(r"\d{4}-\d\d-\d\d", day))
    suite.note("VERSION", {"version": released if headings[0][0] == released else f"{released}+unreleased"}, {"version": VERSION})
    cargo = re.findall(r'^version = "(.*)"$', (TOP / "embedded/rust/Cargo.toml").read_text(), re.M)
    suite.note("the version for Cargo", {"version": [VERSION]}, {"version": cargo})
    program = re.findall(r'VERSION: &str = "(.*)";$', (TOP / "crates/pesp_shell/src/version.rt").read_text(), re.M)
    suite.note("the version of the program", {"version": [VERSION]}, {"version": program})
    library = re.findall(r"^version = version_of (\d+) (\d+) (\d+)$", (TOP / "crates/pesp_embedded/specs/Version.antt").read_text(), re.M)
    suite.note("the version of the library", {"version": [tuple(NUMBERS)]}, {"version": library})
    header = re.findall(r"^#define PESP_VERSION (\d+)$", (TOP / "embedded/pespbench.h").read_text(), re.M)
    suite.note("the version of its header", {"version": [str(VERSION_NUMBER)]}, {"version": header})
    shown = re.findall(r'<span id="version">([^<]*)</span>', (TOP / "page/pespbench.html").read_text())
    suite.note("the version of the page", {"version": [VERSION]}, {"version": shown})
    words = [sys.executable, "-B", "-c", "import pespbench; print(pespbench.__version__)"]
    suite.note("the version of the package", {"standard output": f"{VERSION}\n".encode()}, run(words, cwd=TOP / "python"))
    words = [sys.executable, "-B", "-m", "pespbench", "--version"]
    suite.note("its --version", {"status": 0, "standard output": f"pespbench-py {VERSION}\n".encode()}, run(words, cwd=TOP / "python"))
    names = [path for path in run(["git", "-C", TOP, "grep", "-lF", VERSION])["standard output"].decode().split() if path not in NAMING]
    suite.note("who else has the number", {"files": []}, {"files": names})


def followed(suite: Suite, top: Path) -> None:
    """The commands in its own page have the printed output, wherever it is unpacked."""
    blocks = list(sessions(top / "README.md"))
    suite.holds("the page of the package shows something", blocks)
    for shown in (shown for block in blocks for shown in block):
        came = run(["sh", "-c", shown.command], cwd=top, env={"PATH": os.environ["PATH"], "PYTHONDONTWRITEBYTECODE": "1"})
        wanted = {"status": 0, "standard output": shown.wanted().encode(), "standard error": b""}
        suite.note(f"the page of the package: {shown.command}", wanted, came)


def parts(suite: Suite, top: Path) -> None:
    """It has the page, and the library with its header, with which a caller is compiled as its page says."""
    for name in ["page/pespbench.html", "page/README.md", "embedded/pespbench.h", "embedded/libpesp_embedded.a", "embedded/answer.c"]:
        suite.holds(f"the package has {name}", (top / name).is_file())
    compiler = shutil.which("gcc") or shutil.which("cc")
    if not LIBRARY.exists() or not compiler:
        print("  no caller of the package's library was made: it is not built, or there is no compiler")
        return
    suite.holds("its page says how", "-o /tmp/answer embedded/answer.c embedded/heap.c embedded/libpesp" in (top / "embedded/README.md").read_text())
    suite.note("a caller of the package's library is made", {"status": 0}, run([compiler, *ANSWER], cwd=top))
    suite.note("it answers", {"standard output": b"cost 0\n"}, run([top / "answer", "10", "-", "-", "-"], given=b"cost\n"))
    (top / "answer").unlink(missing_ok=True)


def live_links(suite: Suite, top: Path) -> None:
    """Each link of a document of the package leads to a file of the package, and to an existing heading."""
    pages = sorted(top.rglob("*.md"))
    suite.holds("the package has documents", len(pages) > 10)
    for page in pages:
        named = [(path, heading) for path, heading in links_of(page)]
        lost = [str(path.relative_to(top)) for path, heading in named if not path.exists() or heading and heading not in headings_of(path)]
        suite.note(f"the links of {page.relative_to(top)} in the package", {"lost": []}, {"lost": lost})


def a_clone(suite: Suite, name: str) -> Path:
    """A clone of the files that tools/package reads, with names that are difficult for a shell."""
    tree = suite.folder / name
    (tree / "tools/packing").mkdir(parents=True)
    (tree / "embedded").mkdir()
    tools = [TOP / "tools" / name for name in ("package", "install", "packing/try", "packing/links.py", "packing/tree.py", "packing/__init__.py")]
    for path in [*tools, *(TOP / "embedded").glob("*.[ch]")]:
        shutil.copy(path, tree / path.relative_to(TOP))
    texts = {"CHANGELOG.md": "", "python/pespbench/VERSION": "1.2.3\n", "tools/packing/README.txt": "[a](docs/a.md) [b](other/b.md)\n"}
    texts.update({"SECURITY.md": "", "README.md": "of the tree\n"})
    texts.update({f"{part}/a.md": "" for part in ["man", "completions", "docs", "embedded", "python/pespbench"]})
    texts.update({"docs/two words.md": "[up](../README.md#none)\n", "examples/a 'b' \"c\"": "", "examples/-n": "", "other/b.md": ""})
    texts.update({name: "" for name in ["python/README.md", "python/pyproject.toml", "python/setup.py", "page/README.md", "page/page.png"]})
    texts.update({"page/pespbench.html": "<p>", "page/module.js": "", "tools/module/main.js": ""})
    for file, text in texts.items():
        (tree / file).parent.mkdir(parents=True, exist_ok=True)
        (tree / file).write_text(text)
    git(tree, "init", "-q")
    git(tree, "add", "-A")
    suite.note("a clone to pack", {"status": 0}, git(tree, "commit", "-q", "-m", "one"))
    return tree


def packed(suite: Suite, tree: Path, title: str, **how: Any) -> Tuple[str, Dict[str, int], Dict[str, bytes]]:
    """The package of a clone: its name, its entries with their permissions, and its texts."""
    came = called(suite, [tree / "tools/package", suite.folder], **how)
    suite.note(title, {"status": 0}, came)
    if came["status"]:
        return "", {}, {}
    path = came["standard output"].decode().strip()
    with tarfile.open(path) as tar:
        entries = {each.name.partition("/")[2]: each for each in tar.getmembers()}
        files = {name: tar.extractfile(each) for name, each in entries.items() if each.isfile()}
        texts = {name: file.read() for name, file in files.items() if file is not None}
    return path.rpartition("/")[2], {name: each.mode for name, each in entries.items()}, texts


@within(240)
def package_of_a_clone(suite: Suite) -> None:
    """A package has exactly git's files, whatever their names, and is the same under each umask."""
    tree = a_clone(suite, "clone")
    name, modes, texts = packed(suite, tree, "tools/package with names that are hard to a shell")
    suite.holds("it has the version", name.startswith("pespbench-1.2.3-"))
    suite.holds("names with blanks and quotes are in it", {"docs/two words.md", "examples/a 'b' \"c\"", "examples/-n"} <= set(texts))
    suite.note("a link to what is not packed", {"text": b"[a](docs/a.md) b\n"}, {"text": texts.get("README.md")})
    for path in ["docs/secret", "python/pespbench/mine.py", "examples/a/b/notes~"]:
        (tree / path).parent.mkdir(parents=True, exist_ok=True)
        (tree / path).write_text("not for others\n")
    (tree / "docs/leads-away").symlink_to("/etc/passwd")
    (tree / "docs/a.md").write_text("not yet\n")
    again = packed(suite, tree, "tools/package beside files that are not in git", preexec_fn=lambda: os.umask(0o077))
    suite.note("what is packed again, by a careful user", {"package": (name, modes, texts)}, {"package": again})
    suite.holds("all can read it", modes and all(mode in (0o644, 0o755) for mode in modes.values()))
    shutil.rmtree(tree / ".git")
    suite.note("tools/package without git's files", {"status": 1}, called(suite, [tree / "tools/package", suite.folder]))


def installed(suite: Suite, prefix: Path) -> None:
    """The installed files work on their own."""
    env = {"PESPBENCH": "", "PATH": f"{prefix / 'bin'}:/usr/bin:/bin"}
    came = called(suite, ["pespbench"], given=b"cost\n", env=env)
    suite.note("the installed program", {"status": 0, "standard output": b"cost 0\n"}, came)
    words = ["pespbench-py", "search", "--period", "10", TOP / "examples/two-trains/activities"]
    suite.note("the installed package", {"status": 0, "standard output": b"optimum 4 2\n1 0\n2 4\n"}, called(suite, words, env=env))
    page = (TOP / "man/pespbench.1").read_text().replace('"pespbench"', f'"pespbench {VERSION}"', 1)
    suite.note("the installed manual page", {"text": page}, {"text": (prefix / "share/man/man1/pespbench.1").read_text()})
    completion = prefix / "share/bash-completion/completions/pespbench"
    script = f". {completion}; COMP_WORDS=(pespbench --ti); COMP_CWORD=1; _pespbench; echo ${{COMPREPLY[@]}}"
    suite.note("bash completes an option", {"standard output": b"--times\n"}, run(["bash", "-c", script]))
    for file in ["zsh/site-functions/_pespbench", "fish/vendor_completions.d/pespbench.fish"]:
        text = (prefix / "share" / file).read_text()
        options = ["period", "fixed", "times", "check", "help", "version"]
        suite.holds(f"{file} has each option", all(f"{option}" in text for option in options))


@within(240)
def pip(suite: Suite) -> None:
    """`pip install ./python`, by Debian's Python if that has pip's build tools; nothing is downloaded."""
    if run([SYSTEM, "-c", "import setuptools, wheel, pip"])["status"]:
        print("  pip was not tried: python3-pip, python3-setuptools and python3-wheel are not installed")
        return
    for part in ["python", "tools/module"]:
        shutil.copytree(TOP / part, suite.folder / part, ignore=shutil.ignore_patterns("__pycache__"))
    (suite.folder / "page").mkdir()
    for name in ["pespbench.html", "module.js"]:
        shutil.copy(TOP / "page" / name, suite.folder / "page" / name)
    install = ["-m", "pip", "install", "--quiet", "--no-index", "--no-build-isolation", "--target", "target", "./python"]
    suite.note("pip install ./python", {"status": 0}, called(suite, [SYSTEM, *install], cwd=suite.folder, seconds=220))
    two = TOP / "examples/two-trains/activities"
    came = called(suite, [SYSTEM, "-m", "pespbench", "search", "--period", "10", two], env={"PYTHONPATH": str(suite.folder / "target")})
    suite.note("the package that pip installed", {"status": 0, "standard output": b"optimum 4 2\n1 0\n2 4\n"}, came)
    suite.holds("it tells its types", (suite.folder / "target/pespbench/py.typed").exists())
    for part in ["python", "page", "tools"]:
        shutil.rmtree(suite.folder / part)
    env = {"PYTHONPATH": str(suite.folder / "target")}
    words = [SYSTEM, "-m", "pespbench", "report", "--period", "10", "--output", "report.html", two]
    suite.note("its report", {"status": 0, "standard error": b""}, called(suite, words, cwd=suite.folder, env=env))
    suite.holds("which is the page", (suite.folder / "report.html").stat().st_size > 500_000)
    suite.note("its version", {"standard output": f"pespbench-py {VERSION}\n".encode()}, called(suite, [SYSTEM, "-m", "pespbench", "--version"], env=env))
    if shutil.which("node"):
        script = f"from pespbench import Bench; print(Bench.open({str(two)!r}, period=10, engine='module').optimum())"
        came = called(suite, [SYSTEM, "-c", script], cwd=suite.folder, env={**env, "PESPBENCH": "/none"})
        suite.note("its module", {"status": 0, "standard output": b"Optimum(cost=4, times={1: 0, 2: 4})\n"}, came)


def without_a_program(suite: Suite) -> None:
    """Without a built program both say so, and make nothing."""
    for tool in ["package", "install"]:
        tree = suite.folder / tool
        shutil.copytree(TOP / "tools/packing", tree / "tools/packing", ignore=shutil.ignore_patterns("__pycache__"))
        shutil.copy(TOP / "tools" / tool, tree / "tools" / tool)
        came = called(suite, [tree / "tools" / tool, tree], env={"PESPBENCH": ""})
        told = {"status": came["status"], "told": b"is not built" in came["standard error"]}
        suite.note(f"tools/{tool} without a program", {"status": 1, "told": True}, told)


@within(240)
def packed_strangers(suite: Suite) -> None:
    """A file that is not a program or library of pespbench is neither packed nor installed, and is named."""
    tree = a_clone(suite, "tree")
    (suite.folder / "to").mkdir()
    programs = {"true": b"#!/bin/sh\n", "another": b"#!/bin/sh\necho cost 1\n", "text": b"a text\n"}
    for name, text in programs.items():
        path = suite.file(name, text)
        path.chmod(0o755)
        for tool in ["package", "install"]:
            came = called(suite, [tree / "tools" / tool, suite.folder / "to"], env={"PESPBENCH": str(path)})
            refused_file(suite, f"tools/{tool} of a program {name}", path, came)
    if not shutil.which("cc"):
        return
    source = suite.file("names.c", b"".join(b"void pesp_%s(void) {}\n" % name for name in [b"open", b"search"]))
    run(["cc", "-c", "-o", suite.folder / "names.o", source])
    run(["ar", "r", suite.folder / "names.a", suite.folder / "names.o"])
    libraries = {"text": b"a text\n", "empty": b"!<arch>\n", "names": (suite.folder / "names.a").read_bytes()}
    place = tree / "crates/pesp_embedded/out/libpesp_embedded.a"
    place.parent.mkdir(parents=True)
    for name, content in libraries.items():
        path = suite.file(f"{name}.a", content)
        place.write_bytes(content)
        came = called(suite, [tree / "tools/package", suite.folder], env={"PESPBENCH_LIBRARY": str(path), "CC": "cc"})
        refused_file(suite, f"tools/package of a library {name}", path, came)
        came = called(suite, [tree / "tools/install", suite.folder / "to"], env={"CC": "cc"})
        refused_file(suite, f"tools/install of a library {name}", place, came)


def refused_file(suite: Suite, title: str, path: Path, came: Came) -> None:
    """The file is named, and nothing is made except folders."""
    told = f"{path} is no ".encode() in came["standard error"]
    made = [str(each) for each in (suite.folder / "to").rglob("*") if each.is_file()]
    suite.note(title, {"status": 1, "told": True, "made": []}, {"status": came["status"], "told": told, "made": made})


GROUPS = [package, package_of_a_clone, packed_strangers, one_version, pip, without_a_program]
