"""The cost of cheap lines in bulk."""

import sys
from pathlib import Path
from typing import Sequence

from measuring.counting import count, run

# The aim for each of 1,000,000 cheap lines, above the work of the command.
MOST_PER_LINE = 2_000
# Cheap lines, with the reply to each.
CHEAP = {
    "": "",
    "# comment": "",
    "x": "fault unknown command",
    "untime 1": "refused 2 no event 1",
    "cost": "cost 0",
}


def measure_lines(program: Path, folder: Path, line: str, lines: int, start: int) -> float:
    """The cost of each of this many lines, above that of a run without lines."""
    path = folder / "lines"
    path.write_text(f"{line}\n" * lines)
    reply = f"{CHEAP[line]}\n" if CHEAP[line] else ""
    if run([program], given=path).stdout != reply * lines:
        sys.exit(f"tools/measure: {lines} lines '{line}' are not answered as they should be")
    return (count([program], folder / "callgrind.lines", 0, path) - start) / lines


def print_lines(program: Path, folder: Path, sizes: Sequence[int]) -> None:
    start = count([program], folder / "callgrind.nothing")
    print(f"\na run without lines takes {start} instructions, which are not counted below")
    print(f"{'cheap line':>12} " + " ".join(f"{f'of {size}':>12}" for size in sizes) + "   instructions per line")
    for line in CHEAP:
        each = [measure_lines(program, folder, line, size, start) for size in sizes]
        note = "" if each[-1] <= MOST_PER_LINE else f"   more than {MOST_PER_LINE}"
        print(f"{line or 'blank':>12} " + " ".join(f"{figure:>12.1f}" for figure in each) + note)
