"""The folders of examples/, and the stored run."""

from pathlib import Path
from typing import List, Optional, overload

from tests.harness import TOP, Suite

FILES = {"fixed": ["--fixed", "fixed"], "times": ["--times", "times"], "activities": ["activities"]}


def folders() -> List[Path]:
    return sorted(path for path in (TOP / "examples").iterdir() if path.is_dir())


@overload
def content(path: Path, otherwise: bytes = ...) -> bytes: ...


@overload
def content(path: Path, otherwise: None) -> Optional[bytes]: ...


def content(path: Path, otherwise: Optional[bytes] = b"") -> Optional[bytes]:
    return path.read_bytes() if path.exists() else otherwise


def words_of(folder: Path) -> List[str]:
    """The words of an example's command line: without commands it is a check."""
    given = content(folder / "arguments", None)
    if given is not None:
        return given.decode().splitlines()
    words = [] if (folder / "commands").exists() else ["--check"]
    return words + [word for name in FILES if (folder / name).exists() for word in FILES[name]]


def examples(suite: Suite) -> None:
    for folder in folders():
        suite.case(
            f"examples/{folder.name}",
            words_of(folder),
            status=int(content(folder / "status", b"0")),
            output=content(folder / "expected"),
            error=content(folder / "error"),
            cwd=folder,
            given=content(folder / "commands", None),
        )
        suite.holds(f"examples/{folder.name} is a check or has commands", is_clear(folder))
        suite.holds(f"examples/README.md names {folder.name}", f"]({folder.name}/README.md)" in listed())


def listed() -> str:
    return (TOP / "examples/README.md").read_text()


def is_clear(folder: Path) -> bool:
    return ("--check" in words_of(folder)) != (folder / "commands").exists()


def stored_run(suite: Suite) -> None:
    crate = TOP / "crates/pespbench"
    suite.case("the stored run", [], output=(crate / "stdout").read_bytes(), given=(crate / "stdin").read_bytes())
    output = b"ok\nok\nok\noptimum 0 2\n1 0\n2 3\n"
    given = b"add event 2\nadd event 1\nadd activity 1 1 2 3 5 2\noptimum\n"
    suite.case("the stored run, as the documents have it", [], output=output, given=given)


GROUPS = [examples, stored_run]
