"""The expected output of both keepers, random lines that drive them, and the faults of their output.

The lines are those of the program crates/pesp_tests_keepers: edits as commands, `push fix E T`, which pushes the pair of
an event and a time, and `pop`. A model follows them, by the plain rules of tests/network.py.
"""

import copy
import random
import re
from typing import Dict, List, NamedTuple, Optional, Sequence, Set, Tuple

from tests.changes import restored
from tests.network import Network, Refused
from tests.parsing import command_of

# The numbers of events and activities on which the program reports are below this.
NUMBERS = 8

# An event and a residue of the period.
Pair = Tuple[int, int]
# The domain of each event.
Rows = Dict[int, Set[int]]


class Wanted(NamedTuple):
    """The expected output after a line: most of it literally, and the cost of the last accepted edit."""

    lines: List[str]
    restored: Set[Pair]
    removed: int
    most_probes: int


class Kept:
    """A network, the pushed times by event, the last push last, and the cost of the last accepted edit."""

    def __init__(self, period: int) -> None:
        self.network = Network(period)
        self.pushed: Dict[int, int] = {}
        self.restored: Set[Pair] = set()
        self.removed = 0
        self.most_probes = 0

    def can_follow(self, line: str) -> bool:
        """Whether both keepers can: no edit where something is pushed, no event twice, and no more is taken back than was pushed."""
        if line.startswith("push "):
            event = int(line.split()[2])
            return event in self.network.events and event not in self.pushed
        return bool(self.pushed) == (line == "pop")

    def follow(self, line: str) -> Wanted:
        """Executes the line, and returns the program's expected output."""
        rows = [self.answer(line), *self.rows()]
        lines = ["plain", *rows, "counted", *rows, *self.counts()]
        return Wanted(lines, self.restored, self.removed, self.most_probes)

    def answer(self, line: str) -> str:
        if line == "pop":
            self.pushed.popitem()
            return "ok"
        name, numbers = command_of(line.removeprefix("push ").encode())
        if line.startswith("push "):
            self.pushed[numbers[0]] = numbers[1]
            return "ok"
        return self.edit(name, numbers)

    def edit(self, name: str, numbers: List[int]) -> str:
        before = copy.deepcopy(self.network)
        try:
            getattr(self.network, name.replace(" ", "_"))(*numbers)
        except Refused as refusal:
            return f"refused {str(refusal).split()[0]}"
        self.restored = restored(before, self.network, name, numbers)
        gone = pairs_of(before.rows()) | self.restored
        gone = {pair for pair in gone - pairs_of(self.network.rows()) if pair[0] in self.network.events}
        self.removed = len(gone)
        self.most_probes = most_probes(before, self.network, [*self.restored, *gone])
        return "ok"

    def rows(self) -> List[str]:
        """A line for each number of an event: the number of residues in its row, and a mark for each residue."""
        rows = self.network.rows(self.pushed)
        return [f"row {number} {row_text(rows.get(number), self.network.period)}" for number in range(NUMBERS)]

    def counts(self) -> List[str]:
        """A line for each number of an activity: for each residue at both ends, the number of its partners at the other."""
        rows = self.network.rows(self.pushed)
        return [f"counts {number}{self.counts_of(number, rows)}" for number in range(NUMBERS)]

    def counts_of(self, number: int, rows: Rows) -> str:
        row = self.network.activities.get(number)
        residues = range(self.network.period)
        if row is None:
            return " -" * len(residues) + " /" + " -" * len(residues)
        first, last = rows[row[0]], rows[row[1]]
        tail = [sum(self.network.allows(row, r, s) for s in last) if r in first else "-" for r in residues]
        head = [sum(self.network.allows(row, r, s) for r in first) if s in last else "-" for s in residues]
        return "".join(f" {count}" for count in [*tail, "/", *head])


def pairs_of(rows: Rows) -> Set[Pair]:
    return {(event, residue) for event, row in rows.items() for residue in row}


def row_text(row: Optional[Set[int]], period: int) -> str:
    if row is None:
        return f"0 {'-' * period}"
    return f"{len(row)} {''.join('#' if residue in row else '.' for residue in range(period))}"


def degree(network: Network, event: int) -> int:
    """The number of ends of activities at the event."""
    return sum((row[0] == event) + (row[1] == event) for row in network.activities.values())


def most_probes(before: Network, after: Network, pairs: Sequence[Pair]) -> int:
    """The greatest number of probes of an edit that moves these pairs."""
    period = before.period
    weight = sum(max(degree(before, event), degree(after, event)) + 1 for event, _ in pairs)
    return 4 * period * period + 2 * period * weight


# The lines of the program, and their faults


def right_lines(wanted: Wanted) -> List[str]:
    """The output of a program that needs the greatest number of probes."""
    pairs = "".join(f" {event}:{residue}" for event, residue in sorted(wanted.restored))
    work = f"work {len(wanted.restored)} {wanted.removed} {wanted.most_probes}"
    return [*wanted.lines, f"restored{pairs}", work]


def damaged(draw: random.Random, lines: List[str]) -> List[str]:
    """The lines with one number, one more, or one mark of them changed, or a line omitted."""
    place = draw.randrange(len(lines))
    parts = list(re.finditer(r"\d+|[#.-]", lines[place]))
    if not parts or draw.randrange(10) == 0:
        return lines[:place] + lines[place + 1 :]
    part = draw.choice(parts)
    other = str(int(part[0]) + 1) if part[0].isdigit() else {"#": ".", ".": "#", "-": "#"}[part[0]]
    return [*lines[:place], lines[place][: part.start()] + other + lines[place][part.end() :], *lines[place + 1 :]]


def fault(wanted: Wanted, lines: List[str]) -> Optional[str]:
    """The fault of the lines after one line of input; None if there is none."""
    for place, line in enumerate(wanted.lines):
        came = lines[place] if place < len(lines) else "nothing"
        if came != line:
            return f"'{line}' is wanted, and '{came}' came"
    return fault_of_work(wanted, lines[len(wanted.lines) :])


def fault_of_work(wanted: Wanted, lines: List[str]) -> Optional[str]:
    """The fault of the restored pairs, each of which is reported once, and of the work of the last edit."""
    if [line.split()[0] for line in lines] != ["restored", "work"]:
        return f"a line on restored pairs and one on work are wanted, and these came: {lines}"
    told = [tuple(map(int, pair.split(":"))) for pair in lines[0].split()[1:]]
    if sorted(told) != sorted(wanted.restored):
        return f"these pairs are restored: {sorted(wanted.restored)}, and these are told: {told}"
    restored_pairs, removed, probes = map(int, lines[1].split()[1:])
    if (restored_pairs, removed) != (len(told), wanted.removed):
        return f"{len(told)} pairs came and {wanted.removed} went, and this is told: {lines[1]}"
    if probes > wanted.most_probes:
        return f"at most {wanted.most_probes} probes are taken, and {probes} are told"
    return None


# Random lines


def drawn_edit(draw: random.Random, period: int) -> str:
    """An edit of few events and activities, most of which exist."""
    event, activity = draw.randint(0, 5), draw.randint(0, 6)
    ends = [draw.randint(1, 5), draw.randint(1, 5)]
    lower = draw.randint(-period, period)
    bounds = [lower, lower + draw.choice([0, 1, 2, draw.randrange(period), period])]
    time, length = draw.randrange(period + 1), draw.randint(0, period + 1)
    numbers = {
        "add event": [event],
        "drop event": [event],
        "fix": [event, time],
        "window": [event, time, length],
        "unfix": [event],
        "add activity": [activity, *ends, *bounds, 1],
        "drop activity": [activity],
        "span": [activity, *bounds],
        "weight": [activity, draw.randrange(9)],
        "ends": [activity, *ends],
    }
    name = draw.choice([*numbers, "add event", "add activity", "add activity", "window", "span"])
    return " ".join(map(str, [name, *numbers[name]]))


def drawn_line(draw: random.Random, kept: Kept) -> str:
    """A line that both keepers can follow: no edit while something is pushed, and no event twice."""
    free = sorted(kept.network.events - kept.pushed.keys())
    if kept.pushed and (not free or draw.randrange(3) == 0):
        return "pop"
    if free and draw.randrange(2 if kept.pushed else 4) == 0:
        return f"push fix {draw.choice(free)} {draw.randrange(kept.network.period)}"
    return "pop" if kept.pushed else drawn_edit(draw, kept.network.period)


def network_lines(draw: random.Random, period: int) -> List[str]:
    """Events and activities with which most streams begin, so that later edits have an effect."""
    lines = [f"add event {event}" for event in range(1, draw.randint(2, 6))]
    edits = [drawn_edit(draw, period) for _ in range(40)]
    return [*lines, *[edit for edit in edits if edit.startswith("add activity")][:6]]
