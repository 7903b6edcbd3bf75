"""Command lines: what may be sent as one, and which of them change something."""

from __future__ import annotations

from typing import List, Tuple

# The limits of the program (docs/FORMATS.md, *Limits*).
LONGEST_LINE = 4_096
MOST_LINES = 1_000_000
MOST_NODES = 1_000_000_000_000
# The greatest absolute value of a bound of a span.
GREATEST_BOUND = 1_000_000

TWO_WORDS = ("add", "drop")
# The commands that may take long.
SEARCHES = ("optimum", "try", "adopt")
# Beside `adopt`, these are the commands that change the network or the working timetable.
CHANGES = {
    "add event", "drop event", "fix", "window", "unfix", "add activity", "drop activity", "span", "weight", "ends", "time", "untime",
}


def checked(command: str) -> str:
    """A command line that has exactly one reply. Raises ValueError for any other text, and TypeError for other values."""
    if not isinstance(command, str):
        raise TypeError(f"a command is a str, and not {type(command).__name__}")
    words = command.split()
    if "\n" in command or not words or words[0].startswith("#"):
        raise ValueError("one command a line; blank lines and comments have no reply")
    if len(command.encode()) > LONGEST_LINE:
        raise ValueError(f"a line has at most {LONGEST_LINE} bytes")
    return command


def name_of(command: str) -> str:
    """The name of a command line, of one word or two."""
    words = command.split()
    return " ".join(words[:2] if words[0] in TWO_WORDS else words[:1])


def split(command: str) -> Tuple[str, List[int]]:
    """The name and the numbers of an accepted command."""
    name = name_of(command)
    return name, [int(word) for word in command.split()[len(name.split()) :]]
