"""The cost of the dearest edits: on the greatest network, on a star, on loops at one event and on activities between two events."""

from pathlib import Path
from typing import Iterator, List, Optional, Sequence, Tuple

from measuring.network import PERIOD, Numbers, activity_rows, text_of
from measuring.limited import run_limited
from tests.limits import MOST_ACTIVITIES, MOST_EVENTS
from tests.rules import Row

SECONDS = 300
LONGER_PERIOD = 120


def drawn(period: int) -> List[Row]:
    numbers = Numbers(MOST_ACTIVITIES)
    times = [numbers.below(period) for _ in range(MOST_EVENTS)]
    return list(activity_rows(numbers, MOST_ACTIVITIES, times, True, period=period))


def star() -> List[Row]:
    """All activities lead from one event to others, and admit a third of all residues."""
    return [(row + 1, 0, 1 + row % (MOST_EVENTS - 1), row % PERIOD, row % PERIOD + PERIOD // 3, 1) for row in range(MOST_ACTIVITIES)]


def loops() -> List[Row]:
    """All activities lead from one event to itself, and admit every residue."""
    return [(row + 1, 0, 0, 0, PERIOD - 1, 1) for row in range(MOST_ACTIVITIES)]


def between_two() -> List[Row]:
    """All activities lead from one event to another, and admit the same half of the residues."""
    return [(row + 1, 0, 1, 0, PERIOD // 2, 1) for row in range(MOST_ACTIVITIES)]


def cases() -> Iterator[Tuple[str, int, List[Row], List[Tuple[str, List[str]]]]]:
    """Each network with its period, its rows and lists of lines, which are measured with one more line at a time."""
    fixing: List[Tuple[str, List[str]]] = [("fix", ["fix 0 0"]), ("unfix", ["unfix 0"])]
    fixing += [("fix once more", ["fix 0 0"]), ("fix at another time", ["fix 0 1"])]
    yield f"drawn, period {LONGER_PERIOD}", LONGER_PERIOD, drawn(LONGER_PERIOD), fixing
    yield f"drawn, period {PERIOD}", PERIOD, drawn(PERIOD), fixing
    yield "a star", PERIOD, star(), fixing
    yield "loops at one event", PERIOD, loops(), fixing
    names = [row[0] for row in between_two()]
    for order, ordered in [("ascending", names), ("descending", names[::-1])]:
        yield "between two events", PERIOD, between_two(), [(f"drop all, {order}", [f"drop activity {name}" for name in ordered])]


def seconds_of(program: Path, folder: Path, period: int, lines: Sequence[str]) -> Tuple[Optional[float], int]:
    given = folder / "lines"
    given.write_text("".join(f"{line}\n" for line in lines))
    printed, seconds, memory = run_limited([str(program), "--period", str(period), str(folder / "rows")], given, folder / "memory", SECONDS)
    if seconds is not None and printed != "ok\n" * len(lines):
        raise SystemExit(f"tools/measure: a line of {lines[:3]} is refused")
    return seconds, memory


def print_dearest(programs: Sequence[Path], folder: Path) -> None:
    """Processor seconds of an opening and of edits after it, of each program."""
    print(f"\nseconds of a processor, at most {SECONDS}, and kB, {MOST_ACTIVITIES} activities")
    names = ["before", "now"][-len(programs) :]
    print(f"{'network':<24} {'edit':<22}" + "".join(f" {name:>9} {'kB':>8}" for name in names))
    for network, period, rows, edits in cases():
        (folder / "rows").write_text(text_of(rows))
        lines: List[str] = []
        spent = [0.0] * len(programs)
        opening: Tuple[str, List[str]] = ("opening", [])
        for edit, more in [opening, *edits]:
            lines += more
            figures = []
            for place, program in enumerate(programs):
                seconds, memory = seconds_of(program, folder, period, lines)
                figures.append(f" {'-' if seconds is None else f'{seconds - spent[place]:.2f}':>9} {memory:>8}")
                spent[place] = seconds or spent[place]
            print(f"{network:<24} {edit:<22}" + "".join(figures), flush=True)
