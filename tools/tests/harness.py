"""The common parts of all tests: the programs, files for them, and the count of cases."""

import os
import pathlib
import subprocess
from typing import IO, Any, Callable, Dict, Iterable, List, Mapping, Optional, Sequence, Sized, TypedDict, TypeVar, Union

TOP = pathlib.Path(__file__).resolve().parents[2]
PROGRAM = TOP / "crates/pespbench/out/pespbench"
VERSION = (TOP / "python/pespbench/VERSION").read_text().strip()
# Its numbers, and the number that the library returns.
NUMBERS = VERSION.partition("+")[0].split(".")
VERSION_NUMBER = int("".join(f"{int(number):03}" for number in NUMBERS))
# The greatest seconds of one run of a program.
SECONDS = 60
NAMES = ["activities", "fixed", "times"]

# A group of tests, whose type is kept when its time is set.
Kind = TypeVar("Kind", bound=Callable[..., None])
# The words of a command, each converted to text.
Words = Sequence[object]
# Where a command writes to.
Stream = Union[None, int, IO[Any]]
# The result of a command.
Came = TypedDict("Came", {"status": Union[int, str], "standard output": bytes, "standard error": bytes})

NOT_WRITTEN = b"pespbench: replies cannot be written\n"
NOT_READ = b"pespbench: commands cannot be read\n"


def patient(seconds: float) -> float:
    """A limit of time, the multiple of it that `--patience` asks for."""
    return seconds * int(os.environ.get("PESPBENCH_PATIENCE") or 1)


def positive(word: str) -> int:
    """A whole number above 0, for argparse."""
    if int(word) < 1:
        raise ValueError
    return int(word)


class Some:
    """Matches every nonempty text."""

    def __eq__(self, text: object) -> bool:
        return isinstance(text, Sized) and len(text) > 0

    def __repr__(self) -> str:
        return "any text"


SOME = Some()


def within(seconds: int) -> Callable[[Kind], Kind]:
    """Sets the seconds of a group."""

    def mark(group: Kind) -> Kind:
        setattr(group, "seconds", seconds)
        return group

    return mark


class Suite:
    """The program, a folder for the files of a group, a file with one letter for each case, and one with the last one's name."""

    def __init__(self, program: pathlib.Path, folder: pathlib.Path, tally: pathlib.Path) -> None:
        self.program = program
        self.folder = folder
        self.tally = tally

    def file(self, name: str, content: bytes) -> pathlib.Path:
        path = self.folder / name
        path.write_bytes(content)
        return path

    def note(self, name: str, wanted: Mapping[str, object], came: Mapping[str, object]) -> None:
        """One case, of pairs of a title and a value."""
        wrong = [title for title in wanted if not wanted[title] == came[title]]
        with open(self.tally, "a") as tally:
            tally.write("f" if wrong else "p")
        self.tally.with_suffix(".last").write_text(name, errors="backslashreplace")
        if wrong:
            print(f"FAILED {name}")
        for title in wrong:
            print(f"  {title} wanted: {short(wanted[title])}")
            print(f"  {title} came:   {short(came[title])}", flush=True)

    def has_passed(self) -> bool:
        """Whether no case of the group has failed yet."""
        return "f" not in self.tally.read_text()

    def holds(self, name: str, fact: object) -> None:
        """One case that is true or false."""
        self.note(name, {"it": True}, {"it": bool(fact)})

    def case(self, name: str, words: Words, status: int = 0, output: object = b"", error: object = b"", **how: Any) -> None:
        """Runs the program once, and checks its status and both outputs."""
        came = run([self.program, *words], **how)
        wanted = {"status": status, "standard output": output, "standard error": error}
        self.note(name, wanted, came)

    def check(self, name: str, words: Words, **wanted: Any) -> None:
        """Runs the program once, with `--check`."""
        self.case(name, ["--check", *words], **wanted)


def short(value: object) -> str:
    text = repr(value)
    return text if len(text) <= 600 else f"{text[:400]} .. {text[-150:]} ({len(text)} characters)"


def run(
    command: Words,
    given: Optional[bytes] = None,
    stdout: Stream = subprocess.PIPE,
    stderr: Stream = subprocess.PIPE,
    seconds: float = SECONDS,
    **how: Any,
) -> Came:
    """The result of a command: its status, and its captured output. Other arguments are passed on to subprocess.run."""
    source: Dict[str, Any] = {} if "stdin" in how else {"stdin": subprocess.DEVNULL} if given is None else {"input": given}
    words: List[Union[str, bytes]] = [word if isinstance(word, bytes) else str(word) for word in command]
    try:
        done: "subprocess.CompletedProcess[bytes]" = subprocess.run(words, stdout=stdout, stderr=stderr, timeout=patient(seconds), check=False, **source, **how)
    except subprocess.TimeoutExpired:
        return {"status": f"none within {patient(seconds)} seconds", "standard output": b"", "standard error": b""}
    except OSError as fault:
        return {"status": f"it does not start: {fault}", "standard output": b"", "standard error": b""}
    return {
        "status": done.returncode,
        "standard output": done.stdout or b"",
        "standard error": done.stderr or b"",
    }


def closed_pipe() -> int:
    """The write end of a pipe that nobody reads."""
    reader, writer = os.pipe()
    os.close(reader)
    return writer


def unreadable(name: str) -> bytes:
    return f"pespbench: {name} file cannot be read\n".encode()


def too_long(name: str) -> bytes:
    return f"pespbench: {name} file is too long\n".encode()


def record(name: str, number: int, kind: str) -> bytes:
    return f"pespbench: {name} file, record {number}: {kind}\n".encode()


def words_for(name: str, path: object) -> List[object]:
    return [path] if name == "activities" else [f"--{name}", path]


def missing(event: int) -> bytes:
    """The replies to a check if an event has no time."""
    return f"refused 11 event {event} has no time\n".encode() * 3


def rows_of(tuples: Iterable[Iterable[int]]) -> bytes:
    """Rows in the plain form of files."""
    return "".join("; ".join(map(str, row)) + "\n" for row in tuples).encode()
