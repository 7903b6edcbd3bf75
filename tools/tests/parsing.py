"""Lines and their meaning, as docs/FORMATS.md defines them; tests/model.py answers them."""

import re
from typing import Dict, List, Optional, Tuple

LONGEST_LINE = 4_096
MOST_LINES = 1_000_000

NUMBER = range(0, 1_000_000_000)
BOUND = range(-1_000_000, 1_000_001)
WEIGHT = range(0, 1_000_000_001)
TIME = range(0, 65_536)
LIMIT = range(0, 1_000_000_000_001)

# The range of each number of a command; a command that has a span has it at the places named.
COMMANDS: Dict[str, List[range]] = {
    "add event": [NUMBER],
    "drop event": [NUMBER],
    "fix": [NUMBER, TIME],
    "window": [NUMBER, TIME, TIME],
    "unfix": [NUMBER],
    "add activity": [NUMBER, NUMBER, NUMBER, BOUND, BOUND, WEIGHT],
    "drop activity": [NUMBER],
    "span": [NUMBER, BOUND, BOUND],
    "weight": [NUMBER, WEIGHT],
    "ends": [NUMBER, NUMBER, NUMBER],
    "time": [NUMBER, TIME],
    "untime": [NUMBER],
    "adopt": [],
    "domain": [NUMBER],
    "domains": [],
    "tensions": [],
    "violations": [],
    "cost": [],
    "optimum": [],
    "try": [LIMIT],
    "dump": [],
}
SPANS = {"add activity": (3, 4), "span": (1, 2)}
EDITS = list(COMMANDS)[:10]


class Fault(Exception):
    """The fault of a line."""


def parse(line: bytes) -> Optional[Tuple[str, List[int]]]:
    """The name of a line's command and its numbers, or None for a blank line and a comment."""
    words = [word for word in re.split(rb"[ \t\r]+", line) if word]
    if not words or words[0].startswith(b"#"):
        return None
    count = 2 if words[0] in (b"add", b"drop") else 1
    name = b" ".join(words[:count]).decode("latin-1")
    if name not in COMMANDS:
        raise Fault("unknown command")
    ranges = COMMANDS[name]
    if len(words) != count + len(ranges):
        raise Fault("wrong number of words")
    numbers = [number(place, *pair) for place, pair in enumerate(zip(words[count:], ranges), count + 1)]
    lower, upper = SPANS.get(name, (0, 0))
    if numbers and numbers[lower] > numbers[upper]:
        raise Fault("lower bound above upper bound")
    return name, numbers


def command_of(line: bytes) -> Tuple[str, List[int]]:
    """The same for a line that is neither blank nor a comment."""
    command = parse(line)
    assert command is not None
    return command


def number(place: int, word: bytes, limits: range) -> int:
    if not re.fullmatch(rb"[+-]?[0-9]+", word):
        raise Fault(f"word {place} is not a number")
    digits = word.lstrip(b"+-").lstrip(b"0")
    # Fourteen digits are beyond all limits, whatever follows them.
    value = int(digits[:14] or b"0") * (-1 if word.startswith(b"-") else 1)
    if value not in limits:
        raise Fault(f"word {place} is out of range")
    return value
