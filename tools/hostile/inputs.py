"""The inputs of the program: a command line, its files and its commands."""

import dataclasses
import re
from pathlib import Path
from typing import Iterator, List, Sequence

from measuring.checks import write_files
from measuring.network import PERIOD, Numbers, activity_rows
from measuring.scripts import write_script
from tests.examples import content, folders, words_of
from tests.file_cases import TWO, TWO_FIXED, TWO_TIMES
from tests.harness import NAMES, TOP
from tests.limits import GREATEST_PERIOD
from tests.streams import followed

BLANKS = b" \t\r"

# Each command of the table with its refusals, on the two trains with a fixed time and a timetable.
ALL_COMMANDS = b"""# each command
tensions
violations
cost
domain 1
domains
dump

untime 2
tensions
unfix 1
fix 1 0
fix 1 12
domains
optimum
adopt
cost
window 1 9 3
window 1 10 1
window 1 9 11
window 9 0 1
domains
violations
optimum
window 1 0 2
optimum
dump
window 1 0 10
unfix 1
unfix 1
fix 1 0
weight 1 5
try 2
try 1000
add event 3
add event 3
add activity 3 2 3 1 4 1
add activity 4 1 3 2 5 1
ends 2 3 1
drop event 2
time 3 1
time 9 1
optimum
span 1 3 3
adopt
drop activity 2
drop activity 4
drop activity 3
drop event 3
violations
quit
weight 1 x
span 1 5 3
fix 1 70000
window 1 0
span 1 4 4
fix 2 9
optimum
adopt
unfix 2
optimum
adopt
dump"""

# Two trains on a round trip of a day, with times, windows and replies that exist only at that period.
LONG = [b"1; 1; 2; 3; 5; 2\n2; 2; 1; 1434; 1436; 1\n", b"1; 1439\n", b"1; 1438\n2; 3\n"]
LONG_COMMANDS = b"""# a period of a day
tensions
violations
domain 2
window 1 1430 20
domains
window 1 0 1441
window 2 1439 1440
fix 1 1440
fix 1 1439
optimum
adopt
cost
unfix 1
domain 1
try 1
fix 2 0
try 2
optimum
add event 1666
add activity 3 1666 2 -1439 0 1
time 1666 1440
time 1666 1439
domains
drop activity 2
tensions
dump"""


@dataclasses.dataclass
class Input:
    """A run to be disturbed: its name, the words after the program's name, the folder, and the commands."""

    name: str
    words: List[str]
    folder: Path
    given: bytes = b""

    def is_check(self) -> bool:
        return "--check" in self.words


def stored_run(folder: Path) -> Input:
    return Input("the stored run", [], folder, (TOP / "crates/pespbench/stdin").read_bytes())


def example(folder: Path) -> Input:
    return Input(f"examples/{folder.name}", words_of(folder), folder, content(folder / "commands"))


def words_of_two(folder: Path) -> List[str]:
    """Writes the files of the two trains into the folder, and returns the words for them."""
    return words_of_files(folder, 10, NAMES, [TWO, TWO_FIXED, TWO_TIMES])


def words_of_files(folder: Path, period: int, names: Sequence[str], texts: Sequence[bytes]) -> List[str]:
    """Writes activities, fixed times and times into the folder by these names, and returns the words for them."""
    for name, text in zip(names, texts):
        (folder / name).write_bytes(text)
    activities, fixed, times = names
    return ["--period", str(period), "--fixed", fixed, "--times", times, activities]


def drawn_search(folder: Path, events: int) -> Input:
    """A network whose search has some hundred nodes, with a `try`, with `optimum`, and after edits."""
    numbers = Numbers(events)
    times = [numbers.below(PERIOD) for _ in range(events)]
    rows = list(activity_rows(numbers, 2 * events, times, True, (2, 4)))
    (folder / "searched").write_text("".join("; ".join(map(str, row)) + "\n" for row in rows))
    name, first, last, lower, upper, _ = rows[0]
    lines = ["try 5", "optimum", f"span {name} {lower} {upper + 1}", "try 3", "adopt", f"fix {first} 7", "optimum"]
    return Input("a search", ["searched"], folder, "".join(f"{line}\n" for line in lines).encode())


def script(folder: Path, rows: int) -> Input:
    path, _ = write_script(folder, rows)
    return Input(f"a script of {rows} activities", [], folder, path.read_bytes() + b"dump\n")


def large_check(folder: Path, rows: int) -> Input:
    words, _ = write_files(folder, rows)
    return Input(f"a check of {rows} activities", [str(word) for word in words["check"]], folder)


def inputs(folder: Path) -> Iterator[Input]:
    """All inputs of the program, the longest first."""
    words = words_of_two(folder)
    long_words = words_of_files(folder, GREATEST_PERIOD, [f"long.{name}" for name in NAMES], LONG)
    yield Input("too many lines", [], folder, b"\n" * 999_999 + b"cost\ncost")
    yield large_check(folder, 10_000)
    yield script(folder, 200)
    yield Input("each command", words, folder, ALL_COMMANDS)
    yield Input("each command of a long period", long_words, folder, LONG_COMMANDS)
    yield drawn_search(folder, 8)
    yield Input("a line that is too long", words, folder, b"cost\n" + b"x" * 5_000)
    yield Input("help", ["--help"], folder)
    yield Input("refused words", ["--bogus", "a", "b"], folder)
    yield Input("a check", ["--check", *words], folder)
    yield Input("a check of a long period", ["--check", *long_words], folder)
    yield Input("a faulty file", ["--check", "--times", "activities"], folder)
    yield stored_run(folder)
    yield from map(example, folders())


def has_reply(line: bytes) -> bool:
    """Whether a line of commands has a reply: a blank one and a comment have none."""
    bare = line.strip(BLANKS)
    return bool(bare) and not bare.startswith(b"#")


def ends_of_replies(given: bytes, output: bytes) -> List[int]:
    """How many bytes are written once the first lines are answered, for each number of completely answered lines."""
    ends, place = [0], 0
    for line in re.split(b"\n", given):
        if place < len(output) and has_reply(line):
            first = output[place : output.index(b"\n", place)].decode("latin-1")
            for _ in range(1 + followed(first)):
                place = output.index(b"\n", place) + 1
        ends.append(place)
    return ends
