"""The cost of a check, and of reading alone."""

import argparse
import dataclasses
import sys
from pathlib import Path
from typing import Dict, List, Optional, Sequence, Tuple

from measuring.counting import count, peak, run
from measuring.network import PERIOD, Numbers, activity_rows, events_of, fixed_rows, text_of

SHOWN_FUNCTIONS = 25
COUNTED = ["check", "reading"]


@dataclasses.dataclass(frozen=True)
class Form:
    """The options of a check's files."""

    name: str
    activities_ascend: bool = False
    times_ascend: bool = True
    end: Optional[int] = None


UNSORTED = Form("activities in no order")
FORMS = [
    UNSORTED,
    Form("activities ascending", activities_ascend=True),
    Form("all activities to one event", end=0),
    Form("times in no order too", times_ascend=False),
]


def write_files(folder: Path, rows: int, form: Form = UNSORTED) -> Tuple[Dict[str, List[object]], int]:
    """The words of a check and of a run that reads alone, and the number of events."""
    numbers = Numbers(rows)
    events = events_of(rows)
    times = [numbers.below(PERIOD) for _ in range(events)]
    activities = list(activity_rows(numbers, rows, times, end=form.end))
    fixed = text_of(fixed_rows(numbers, times))
    order = range(events) if form.times_ascend else numbers.shuffled(events)
    texts = {
        "activities": text_of(sorted(activities) if form.activities_ascend else activities),
        "fixed": fixed,
        "times": text_of((event, times[event]) for event in order),
    }
    texts["reading"] = texts["times"] + "0\n"
    paths = {name: folder / f"{name}.{rows}" for name in texts}
    for name, path in paths.items():
        path.write_text(texts[name])
    given: List[object] = ["--period", str(PERIOD), "--check", "--fixed", paths["fixed"], paths["activities"]]
    return {"check": [*given, "--times", paths["times"]], "reading": [*given, "--times", paths["reading"]]}, events


def check_of(program: Path, folder: Path, rows: int, form: Form) -> Tuple[List[object], List[object], int]:
    """The words of a check that is not refused, of a run that reads alone, and the number of events."""
    words, events = write_files(folder, rows, form)
    check, reading = ([program, *words[name]] for name in COUNTED)
    if run(check).stdout.startswith("refused"):
        sys.exit(f"tools/measure: the check of {rows} rows, {form.name}, is refused")
    return check, reading, events


def measure(program: Path, folder: Path, rows: int) -> Dict[str, int]:
    """The figures for one number of activities."""
    check, reading, events = check_of(program, folder, rows, UNSORTED)
    wanted = f"pespbench: times file, record {events + 1}: wrong number of fields\n"
    if run(reading, 1).stderr != wanted:
        sys.exit(f"tools/measure: the run that reads {rows} rows alone did not end after the last of the times")
    return {
        "rows": rows,
        "events": events,
        "check": count(check, profile_of(folder, rows)),
        "reading": count(reading, folder / "callgrind.reading", 1),
        "memory": peak(check, folder / "memory"),
    }


def profile_of(folder: Path, rows: int) -> Path:
    """The file for the profile of a check with this many rows."""
    return folder / f"callgrind.{rows}"


def print_table(start: int, table: Sequence[Dict[str, int]]) -> None:
    print(f"an empty check takes {start} instructions, which are not counted below")
    print(f"{'':>15} {'a whole check':>39}   {'reading alone':>39}")
    columns = f"{'instructions':>15} {'per activity':>14} {'growth':>8}"
    print(f"{'rows':>7} {'events':>7} {columns}   {columns} {'peak kB':>9}")
    each = [{name: (row[name] - start) / row["rows"] for name in COUNTED} for row in table]
    for place, row in enumerate(table):
        cells = []
        for name in COUNTED:
            growth = f"{each[place][name] / each[place - 1][name]:.2f}" if place else ""
            cells.append(f"{row[name] - start:>15} {each[place][name]:>14.1f} {growth:>8}")
        print(f"{row['rows']:>7} {row['events']:>7} {'   '.join(cells)} {row['memory']:>9}")
    for name, title in zip(COUNTED, ["a check", "reading alone"]) if len(table) > 1 else []:
        overall = each[-1][name] / each[0][name]
        ends = f"from {table[0]['rows']} to {table[-1]['rows']} rows"
        print(f"instructions per activity of {title} grow {overall:.2f} times {ends}")


def measure_form(program: Path, folder: Path, sizes: Sequence[int], form: Form) -> Tuple[List[int], int]:
    """The instructions of checks of one form, and the peak memory of the greatest."""
    counts = []
    for rows in sizes:
        check, _, _ = check_of(program, folder, rows, form)
        counts.append(count(check, folder / "callgrind.form"))
    return counts, peak(check, folder / "memory")


def print_forms(start: int, sizes: Sequence[int], table: Sequence[Tuple[Form, Tuple[List[int], int]]]) -> None:
    print("\ninstructions per activity of a whole check, by the order of the rows")
    print(f"{'rows':>29} {''.join(f'{rows:>9}' for rows in sizes)} {'peak kB':>9}")
    for form, (counts, memory) in table:
        each = "".join(f"{(found - start) / rows:>9.1f}" for rows, found in zip(sizes, counts))
        print(f"{form.name:>29} {each} {memory:>9}")


def print_profile(rows: int, profile: Path) -> None:
    print(f"\nat {rows} rows:")
    lines = run(["callgrind_annotate", profile]).stdout.splitlines()
    begun = next(place for place, line in enumerate(lines) if "file:function" in line)
    print("\n".join(line[:160] for line in lines[begun : begun + SHOWN_FUNCTIONS + 2]))


def measure_checks(words: argparse.Namespace, folder: Path) -> None:
    start = count([words.program, "--check"], folder / "callgrind.empty")
    table = [measure(words.program, folder, rows) for rows in words.rows]
    print_table(start, table)
    print_forms(start, words.rows, [(form, measure_form(words.program, folder, words.rows, form)) for form in FORMS])
    for row in table if words.profile else []:
        print_profile(row["rows"], profile_of(folder, row["rows"]))
