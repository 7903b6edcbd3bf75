"""The cost of a script as commands of the program."""

import sys
from pathlib import Path
from typing import Dict, Iterable, Mapping, Tuple

from measuring.counting import count, run
from measuring.network import PERIOD, Numbers, activity_rows, events_of, fixed_rows


def write_script(folder: Path, rows: int) -> Tuple[Path, int]:
    """A script, and the number of its lines."""
    numbers = Numbers(rows)
    events = events_of(rows)
    times = [numbers.below(PERIOD) for _ in range(events)]
    lines = [f"add event {event}" for event in range(events)]
    lines += [f"fix {event} {time}" for event, time in fixed_rows(numbers, times)]
    lines += ["add activity " + " ".join(map(str, row)) for row in sorted(activity_rows(numbers, rows, times))]
    text = "".join(f"{line}\n" for line in [f"# period {PERIOD} lines {len(lines)}", *lines])
    path = folder / f"script.{rows}"
    path.write_text(text)
    return path, len(lines) + 1


def measure_commands(program: Path, folder: Path, rows: int) -> Dict[str, int]:
    """The cost of a script as commands of the program, and of dumping the result."""
    path, lines = write_script(folder, rows)
    script = path.read_text()
    asked = folder / "asked"
    asked.write_text(script + "dump\n")
    words = [program, "--period", str(PERIOD)]
    if run(words, given=asked).stdout != "ok\n" * (lines - 1) + script:
        sys.exit(f"tools/measure: the script of {rows} rows does not come back")
    replay = count(words, folder / f"callgrind.commands.{rows}", 0, path)
    both = count(words, folder / f"callgrind.asked.{rows}", 0, asked)
    return {"rows": rows, "lines": lines, "replay": replay, "dump": both - replay}


def print_scripts(start: int, table: Iterable[Mapping[str, int]]) -> None:
    print(f"\nan empty script takes {start} instructions, which are not counted below")
    print(f"{'':>15} {'replay':>35}   {'dump':>35}")
    columns = f"{'instructions':>15} {'per line':>10} {'growth':>8}"
    print(f"{'rows':>7} {'lines':>7} {columns}   {columns}")
    before: Dict[str, float] = {}
    for row in table:
        cells = []
        for name, less in [("replay", start), ("dump", 0)]:
            each = (row[name] - less) / row["lines"]
            growth = f"{each / before[name]:.2f}" if name in before else ""
            before[name] = each
            cells.append(f"{row[name] - less:>15} {each:>10.1f} {growth:>8}")
        print(f"{row['rows']:>7} {row['lines']:>7} {'   '.join(cells)}")
