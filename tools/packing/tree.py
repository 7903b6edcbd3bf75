"""The packed tree, as committed."""

import io
import os
import pathlib
import subprocess
import tarfile
from typing import Dict, Tuple

TOP = pathlib.Path(__file__).resolve().parents[2]
# The file of the version.
VERSION = "python/pespbench/VERSION"
# The package's own README, instead of the tree's.
OWN_PAGE = "tools/packing/README.txt"
PARTS = [OWN_PAGE, "CHANGELOG.md", "SECURITY.md", "man", "completions", "docs", "examples", "embedded", "tools/install", "tools/packing/try"]
PARTS += ["python/README.md", "python/pyproject.toml", "python/setup.py", "python/pespbench"]
PARTS += ["page/README.md", "page/page.png", "page/pespbench.html", "page/module.js", "tools/module"]


class NotMade(Exception):
    """Why no package is made."""


def git(*words: str) -> bytes:
    """The output of git in this tree, even if the environment names another one."""
    env = {name: value for name, value in os.environ.items() if not name.startswith("GIT_")}
    try:
        done = subprocess.run(["git", "-C", str(TOP), *words], env=env, capture_output=True)
    except OSError as fault:
        raise NotMade(f"git does not start: {fault}") from None
    if done.returncode:
        raise NotMade(f"git does not tell what is in the tree: {done.stderr.decode(errors='replace').strip()}")
    return done.stdout


def committed() -> Dict[str, Tuple[bytes, bool]]:
    """The packed files, each with its bytes and whether it is executable, as in HEAD. Raises NotMade."""
    if os.path.realpath(git("rev-parse", "--show-toplevel").decode().rstrip("\n")) != str(TOP):
        raise NotMade("this folder is no clone of git, which says what belongs to it")
    found: Dict[str, Tuple[bytes, bool]] = {}
    with tarfile.open(fileobj=io.BytesIO(git("archive", "--format=tar", "HEAD", "--", *PARTS))) as tar:
        for member in tar.getmembers():
            file = tar.extractfile(member) if member.isfile() else None
            if file is not None:
                found[member.name] = file.read(), bool(member.mode & 0o100)
            elif not member.isdir():
                raise NotMade(f"{member.name} is neither a file nor a folder")
    return found


def has_changes() -> bool:
    """Whether a packed file differs from HEAD."""
    return bool(git("status", "--porcelain", "--untracked-files=no", "--", *PARTS))
