"""Random runs: a period, three files and commands; and the program's results."""

import random
from typing import List, NamedTuple, Sequence, Tuple, TypedDict

from tests.drawn_files import Form, damaged, drawn
from tests.harness import Suite, run
from tests.rules import Row, Times
from tests.streams import drawn_lines, searches

LINES = 25
# The periods with files whose rows the commands name, and whose optima are soon found.
GREATEST_SHORT = 12
LONG = [60, 120, 255, 256, 1440]


class Asked(NamedTuple):
    """The input of a run."""

    period: int
    activities: bytes
    fixed: bytes
    times: bytes
    commands: bytes


class Told(TypedDict):
    """Its output."""

    replies: bytes
    fault: str


def short_rows(draw: random.Random, period: int) -> Tuple[List[Row], Times, Times]:
    """Rows of a few events and activities, as lines name them."""
    activities: List[Row] = []
    for number in draw.sample(range(1, 7), draw.randint(0, 5)):
        lower = draw.randint(-period, period)
        ends = [draw.randint(1, 4), draw.randint(1, 4)]
        activities.append((number, *ends, lower, lower + draw.randrange(period), draw.randrange(5)))
    named = sorted({event for row in activities for event in row[1:3]})
    fixed = {event: draw.randrange(period) for event in named if draw.randrange(4) == 0}
    times = {event: draw.randrange(period) for event in range(1, 6) if draw.randrange(2)}
    return activities, fixed, times


def drawn_run(draw: random.Random) -> Asked:
    """A run; usually its files can be read."""
    is_short = draw.randrange(4) > 0
    period = draw.randint(2, GREATEST_SHORT) if is_short else draw.choice(LONG)
    activities, fixed, times = short_rows(draw, period) if is_short else drawn(draw, draw.randint(1, 6), draw.randint(1, 6))
    rows: List[Sequence[Sequence[int]]] = [activities, list(fixed.items()), list(times.items())]
    files = [Form(draw).write(part) for part in rows]
    if draw.randrange(5) == 0:
        place = draw.randrange(len(files))
        files[place] = damaged(draw, files[place])
    lines = [line for line in drawn_lines(draw, period, LINES) if is_short or not searches(line)]
    return Asked(period, files[0], files[1], files[2], b"\n".join(lines) + draw.choice([b"", b"\n"]))


def told_by(suite: Suite, asked: Asked) -> Told:
    """The program's result: its replies, and the text of its fault."""
    names = ["activities", "fixed", "times"]
    activities, fixed, times = (suite.file(f"given {name}", getattr(asked, name)) for name in names)
    words = [suite.program, "--period", str(asked.period), "--fixed", fixed, "--times", times, activities]
    came = run(words, given=asked.commands)
    fault = came["standard error"].decode()
    right = bool(fault) == bool(came["status"])
    fault = fault.removeprefix("pespbench: ").removesuffix("\n")
    return {"replies": came["standard output"], "fault": fault if right else f"status {came['status']}: {fault}"}
