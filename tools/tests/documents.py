"""The sessions in documents, replayed."""

import os
import re
from pathlib import Path
from typing import Iterator, List, Sequence, Tuple

from tests.file_cases import ABSENT, ACTIVITIES, CROSSED, EVENT_TWICE, EVENTS, FIELDS, FRACTION, TWICE, bad, out
from tests.harness import TOP, Suite, run, within
from tests.parsing import COMMANDS


class Shown:
    """A command of a document, its typed lines, and the printed ones."""

    def __init__(self, command: str) -> None:
        self.command = command
        self.typed: List[Tuple[int, str]] = []
        self.printed: List[str] = []

    def add(self, line: str) -> None:
        """Adds the next line of the document; one that begins with `> ` is typed."""
        if line.startswith("> "):
            self.typed.append((len(self.printed), line[2:]))
        else:
            self.printed.append(line)

    def script(self) -> str:
        """The command for a shell."""
        command = self.command.replace("tools/pespbench", "pespbench")
        typed = "".join(f"{line}\n" for _, line in self.typed)
        return f"{command} <<'END'\n{typed}END" if typed else command

    def wanted(self) -> str:
        return "".join(f"{line}\n" for line in self.printed)

    def shows_whole_replies(self) -> bool:
        """Whether its own reply is below each typed line: those of the lines before are complete."""
        places = [place for place, _ in self.typed]
        return set(places) <= set(ends_of_replies(self.printed))


def ends_of_replies(lines: Sequence[str]) -> List[int]:
    """The places between replies: a header says how many lines follow it."""
    place, ends = 0, [0]
    while place < len(lines):
        words = lines[place].split()
        counts = {"domains": 1, "tensions": 1, "violations": 1, "optimum": 2, "stopped": 2, "#": 4}
        last = words[min(counts.get(words[0], 0), len(words) - 1)] if words else ""
        place += 1 + (int(last) if words and words[0] in counts and last.isdigit() else 0)
        ends.append(place)
    return ends


def sessions(path: Path) -> Iterator[List[Shown]]:
    """The blocks of a document that show a session: lists of a command and its output."""
    text = path.read_text()
    if path.suffix == ".md":
        blocks = re.findall(r"^```console\n(.*?)^```$", text, re.M | re.S)
    else:
        blocks = re.findall(r"^\.EX\n(.*?)^\.EE$", text, re.M | re.S)
        blocks = [block.replace("\\-", "-").replace("\\e", "\\") for block in blocks]
    for block in blocks:
        session = []
        for line in block.splitlines():
            if line.startswith("$ "):
                session.append(Shown(line[2:]))
            elif session:
                session[-1].add(line)
        if session:
            yield session


def play(suite: Suite, session: Sequence[Shown]) -> List[str]:
    """The output of a shell at the top of the repository for each command of a session."""
    mark = "-- next command --"
    script = ["exec 2>&1", "last=0"]
    for shown in session:
        script += [f"printf '%s\\n' '{mark}'", "(exit $last)", shown.script(), "last=$?"]
    path = f"{suite.folder / 'bin'}:{os.environ['PATH']}"
    came = run(["sh", "-c", "\n".join(script)], cwd=TOP, env={**os.environ, "PATH": path})
    return came["standard output"].decode().split(f"{mark}\n")[1:]


def shown_in() -> List[Path]:
    """The documents that show sessions."""
    folders = ["", "docs/", "embedded/", "python/", "examples/**/"]
    return sorted(path for pattern in [*(f"{folder}*.md" for folder in folders), "man/*.1"] for path in TOP.glob(pattern))


def of_what_is_built(path: Path) -> bool:
    """Whether a document's sessions need the built program's own memory, or the library in process."""
    return path.name == "SECURITY.md" or path.parent.name == "embedded"


@within(240)
def documents(suite: Suite) -> None:
    play_all(suite, [path for path in shown_in() if not of_what_is_built(path)])


def documents_of_what_is_built(suite: Suite) -> None:
    play_all(suite, [path for path in shown_in() if of_what_is_built(path)])


def play_all(suite: Suite, paths: Sequence[Path]) -> None:
    commands = suite.folder / "bin"
    commands.mkdir()
    (commands / "pespbench").symlink_to(suite.program)
    for path in paths:
        for number, session in enumerate(sessions(path), 1):
            titles = [f"what command {place} prints, {shown.command}," for place, shown in enumerate(session, 1)]
            wanted = dict(zip(titles, [shown.wanted() for shown in session]))
            printed = play(suite, session)
            came = dict(zip(titles, [*printed, *["nothing"] * len(titles)]))
            suite.note(f"{path.relative_to(TOP)}, session {number}", wanted, came)
            whole = all(shown.shows_whole_replies() for shown in session)
            suite.holds(f"{path.relative_to(TOP)}, session {number} has each reply below its line", whole)


# The texts that the documents must name: faults of files, refusals, faults of lines, and ends of a run.
TEXTS = [FIELDS, bad("k"), out("k"), FRACTION, CROSSED, TWICE, EVENT_TWICE, ABSENT, EVENTS, ACTIVITIES, "out of memory"]
TEXTS += [f"refused {number} " for number in (1, 2, 3, 4, 5, 6, 7, 8, 9, 11, 12, 13)]
TEXTS += ["is used by activity", "is not fixed", "has no time", "refused 12 infeasible", "stopped none"]
TEXTS += ["unknown command", "wrong number of words", "fault lower bound above upper bound", "commands cannot be read"]
TEXTS += ["replies cannot be written", "is longer than 4096 bytes", "more than 1000000 lines", "out of memory at line"]


def named_texts(suite: Suite) -> None:
    for path in [TOP / "docs/FORMATS.md", TOP / "man/pespbench.1"]:
        for text in [*TEXTS, *COMMANDS]:
            found = {"found": text in path.read_text()}
            suite.note(f"{path.relative_to(TOP)} has '{text}'", {"found": True}, found)


def shown_scripts(suite: Suite) -> None:
    """A block of Python in a document is a part of a script of examples/."""
    scripts = [path.read_text() for path in (TOP / "examples").glob("*.py")]
    for name, wanted in {"python/README.md": "Bench.open(", "docs/FORMATS.md": "replies_of("}.items():
        blocks = re.findall(r"^```python\n(.*?)^```$", (TOP / name).read_text(), re.M | re.S)
        suite.holds(f"{name} shows Python that has '{wanted}'", any(wanted in block for block in blocks))
        for block in blocks:
            suite.holds(f"{name}: {block[:40]!r} stands in examples/", any(block in script for script in scripts))


def checks_say_so(suite: Suite) -> None:
    """A command line without commands in a document means a check, and says `--check`."""
    for path in shown_in():
        # The callers of the library in process are programs of their own, and have no such option.
        for session in sessions(path) if path.parent.name != "embedded" else []:
            for shown in session:
                is_check = any(line.startswith(("tensions ", "pespbench: ")) for line in shown.printed)
                is_fine = not is_check or shown.typed or "--check" in shown.command or "|" in shown.command
                suite.holds(f"{path.relative_to(TOP)} says --check in {shown.command}", is_fine)


GROUPS = [documents, documents_of_what_is_built, named_texts, shown_scripts, checks_say_so]
