"""The cost of files and commands that were designed to be expensive, at three sizes each."""

import math
import sys
from pathlib import Path
from typing import Callable, Dict, List, Optional, Sequence, Tuple

from measuring.counting import count, peak, run
from measuring.network import PERIOD, Numbers, activity_rows, events_of, text_of
from tests.limits import GREATEST_PERIOD, MOST_EVENTS, most_activities

BYTES = [600_000, 6_000_000, 60_000_000]
ROWS = [1_000, 10_000, 100_000]
LINES = [10_000, 100_000, 1_000_000]
NOTHING = "tensions 0\nviolations 0\ncost 0\n"
FAULT = "pespbench: activities file, record 1: "
TWO = "1; 1; 2; 0; 59; 1\n"


def at_one_event(rows: int) -> str:
    return text_of((name, 1, 1, 0, 59, 1) for name in range(rows))


def from_one_event(rows: int) -> str:
    return text_of((name, 1, 2 + name % (MOST_EVENTS - 1), 0, 59, 1) for name in range(rows))


def alike_rows(rows: int) -> str:
    """Numbers in fourteen kinds, each with the same last 17 bits: all but fourteen lose their guess to another."""
    return text_of((name % 7_629 * 131_072 + name // 7_629, 1, 1, 0, 59, 1) for name in range(rows))


def reversed_rows(rows: int) -> str:
    numbers = Numbers(rows)
    times = [numbers.below(PERIOD) for _ in range(events_of(rows))]
    return text_of(sorted(activity_rows(numbers, rows, times), reverse=True))


def too_many_rows(size: int) -> str:
    """More rows than the limit at the greatest period, if this many bytes contain them."""
    return text_of((name, 1, 1, 0, 59, 1) for name in range(size // len("000000; 1; 1; 0; 59; 1\n")))


def repeated_rows(rows: int) -> str:
    """The last row repeats the number of the first."""
    return text_of((name % (rows - 1), 1, 1, 0, 59, 1) for name in range(rows))


def fixed_rows(rows: int) -> str:
    """Five rows an event: the first repeated event is reported."""
    return text_of((event % events_of(rows), 0) for event in range(rows))


# A file of activities of this many bytes, and its fault.
FILES: Dict[str, Tuple[Callable[[int], str], Optional[str]]] = {
    "one field": (lambda size: "1" * size, FAULT + "wrong number of fields\n"),
    "separators": (lambda size: ";" * size, FAULT + "wrong number of fields\n"),
    "a number": (lambda size: "1; 1; 2; 3; 5; ".ljust(size, "0"), None),
    "a fraction": (lambda size: "1; 1; 2; 3; 5; 0.".ljust(size, "0"), None),
    "quotes": (lambda size: '"' * size, FAULT + "wrong number of fields\n"),
    "blank lines": (lambda size: "\n" * size, NOTHING),
    "lines of a blank": (lambda size: " \n" * (size // 2), NOTHING),
    "a comment": (lambda size: "#".ljust(size, "x"), NOTHING),
    "comments": (lambda size: "#\n" * (size // 2), NOTHING),
}
# A file of this many rows; the events have no time, so that the check is short.
NETWORKS = {"at one event": at_one_event, "from one event": from_one_event, "ending alike": alike_rows, "numbers descending": reversed_rows}
# A line repeated this often on the network of one activity, and the reply to each.
COMMANDS = {
    "": "",
    "cost": "refused 11 event 1 has no time",
    "fix 1 0": "ok",
    "span 1 0 59": "ok",
    "try 0": "stopped none",
}


# The words of a run, its commands, and its expected output, if known.
Prepared = Tuple[List[object], Optional[Path], Optional[str]]
Prepare = Callable[[int], Prepared]


class Table:
    """Instructions for each byte, row or line, and whether they grow by more than the logarithm of the size."""

    def __init__(self, program: Path, folder: Path, title: str, unit: str, sizes: Sequence[int]) -> None:
        self.program, self.folder, self.sizes = program, folder, sizes
        self.start = count([program, "--check"], folder / "callgrind.start")
        print(f"\n{title}: instructions per {unit}\n{'':>20} " + " ".join(f"{f'of {size}':>13}" for size in sizes), end="")
        print(f"{'growth':>9} {'peak kB':>9}")

    def measure(self, name: str, prepare: Prepare, status: int = 0) -> None:
        """Each size of a kind: `prepare` returns the words, the commands and the expected output."""
        each: List[float] = []
        memory = 0
        for size in self.sizes:
            words, given, wanted = prepare(size)
            came = run([self.program, *words], status, given)
            if wanted is not None and came.stdout + came.stderr != wanted:
                sys.exit(f"tools/measure: {name} of {size} is not answered as it should be")
            each.append((count([self.program, *words], self.folder / "callgrind.hostile", status, given) - self.start) / size)
            memory = peak([self.program, *words], self.folder / "memory", status, given)
        growth = each[-1] / each[0]
        note = "" if growth <= math.log(self.sizes[-1]) / math.log(self.sizes[0]) else "   more than the logarithm"
        figures = " ".join(f"{figure:>13.1f}" for figure in each)
        print(f"{name or 'blank':>20} {figures} {growth:>8.2f} {memory:>9}{note}", flush=True)


def measure_files(program: Path, folder: Path, sizes: Sequence[int]) -> None:
    table, path = Table(program, folder, "a file of activities", "byte", sizes), folder / "hostile"
    for name, (text, wanted) in FILES.items():

        def prepare(size: int, text: Callable[[int], str] = text, wanted: Optional[str] = wanted) -> Prepared:
            path.write_text(text(size))
            return ["--check", path], None, wanted

        table.measure(name, prepare, int(bool(wanted and wanted.startswith(FAULT))))

    def prepare_rows(size: int) -> Prepared:
        path.write_text(too_many_rows(size))
        fault = f"pespbench: activities file, record {most_activities(GREATEST_PERIOD) + 1}: too many activities\n"
        return ["--period", GREATEST_PERIOD, "--check", path], None, fault

    table.measure("too many rows", prepare_rows, 1)


def measure_networks(program: Path, folder: Path, sizes: Sequence[int]) -> None:
    path, fixed = folder / "hostile", folder / "hostile.fixed"
    checks: Dict[str, List[str]] = {"activities opened for commands": [], "a check of activities": ["--check"]}
    for title, check in checks.items():
        table = Table(program, folder, title, "row", sizes)
        for name, rows in NETWORKS.items():

            def prepare(size: int, rows: Callable[[int], str] = rows) -> Prepared:
                path.write_text(rows(size))
                return [*check, path], None, None

            table.measure(name, prepare)

    def prepare_fixed(size: int) -> Prepared:
        path.write_text(reversed_rows(size))
        fixed.write_text(fixed_rows(size))
        fault = f"pespbench: fixed file, record {events_of(size) + 1}: event is repeated\n"
        return ["--check", "--fixed", fixed, path], None, fault

    def prepare_repeated(size: int) -> Prepared:
        path.write_text(repeated_rows(size))
        return ["--check", path], None, f"pespbench: activities file, record {size}: activity number is repeated\n"

    table.measure("a number repeated", prepare_repeated, 1)
    table.measure("and fixed times", prepare_fixed, 1)


def measure_lines(program: Path, folder: Path, sizes: Sequence[int]) -> None:
    table, path, given = Table(program, folder, "commands", "line", sizes), folder / "hostile", folder / "given"
    path.write_text(TWO)
    for line, reply in COMMANDS.items():

        def prepare(size: int, line: str = line, reply: str = reply) -> Prepared:
            given.write_text(f"{line}\n" * size)
            return [path], given, f"{reply}\n" * size if reply else ""

        table.measure(line, prepare)


def measure_hostile(program: Path, folder: Path, divisor: int = 1) -> None:
    """Each table; a divisor reduces all sizes."""
    for measure, sizes in [(measure_lines, LINES), (measure_networks, ROWS), (measure_files, BYTES)]:
        measure(program, folder, [size // divisor for size in sizes])
