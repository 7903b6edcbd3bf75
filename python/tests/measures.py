"""The times of the package's answers: `python3 -m tests.measures [PROGRAM [LIBRARY]]` in the folder python/.

First moves a second, on random networks with a time for each event, with the program and, if it is named, with the library:
a time set and the cost returned, one by one and by `moves`, and the bytes of each in the journal. Then, on random regions,
seconds of the clock: why an infeasible region has no timetable, with all kinds changeable and with runs, dwells and headways
held; the report on a feasible one; and a changed span with all domains. Each is the best of three runs.
"""

from __future__ import annotations

import random
import sys
import tempfile
import time
import tracemalloc
from pathlib import Path
from typing import Any, Callable, Dict, Iterator, List, Sequence, Tuple

from pespbench import Bench
from pespbench.drawn import draw_region
from pespbench.report import gather, page_of
from pespbench.why import Conflict, why
from tests.common import PROGRAM, drawn_script

SEEDS = range(1, 9)
RUNS = 3
HARD = ("run", "dwell", "headway")
# Events and activities of the networks of moves, and how many moves there are.
SIZES = [(108, 140), (2_048, 2_645)]
MOVES = 20_000


def seconds(work: Callable[[], object]) -> float:
    """The least time of some work."""
    taken = []
    for _ in range(RUNS):
        began = time.perf_counter()
        work()
        taken.append(time.perf_counter() - began)
    return min(taken)


def opened(folder: Path, seed: int, feasible: bool, program: str) -> Bench:
    """A region in a bench, with its labels and hidden times."""
    draw_region(seed, feasible).save(folder)
    files = {name: folder / name for name in ("times", "labels")}
    return Bench.open(folder / "activities", times=files["times"], labels=files["labels"], program=program)


def measure(folder: Path, seed: int, program: str) -> Sequence[float]:
    """The figures of a seed."""
    with opened(folder, seed, False, program) as bench:
        answer = why(bench, ())
        if not isinstance(answer, Conflict):
            raise ValueError(f"seed {seed}: no conflict was found")
        figures = [seconds(lambda: why(bench, ())), seconds(lambda: why(bench, HARD))]
    with opened(folder, seed, True, program) as bench:
        bench.fix(1, bench.times[1])
        figures.append(seconds(lambda: page_of(gather(bench, "Region"))))
        activity = next(iter(bench.network.activities.values()))

        def edit() -> None:
            bench.span(activity.number, activity.lower, activity.upper + 1)
            bench.domains()
            bench.span(activity.number, activity.lower, activity.upper)

        figures.append(seconds(edit))
    return figures


def moves_a_second(bench: Bench, moves: List[Tuple[int, int]]) -> Tuple[float, float]:
    """How many moves a second are made one by one, and in one call."""

    def one_by_one() -> None:
        for event, at in moves:
            bench.time(event, at)
            bench.cost()

    return len(moves) / seconds(one_by_one), len(moves) / seconds(lambda: bench.moves(moves))


def journal_room(bench: Bench, moves: List[Tuple[int, int]]) -> float:
    """The bytes of a move in the journal."""
    tracemalloc.start()
    bench.moves(moves)
    taken = tracemalloc.get_traced_memory()[0] / len(moves)
    tracemalloc.stop()
    return taken


def measured_moves(engines: Dict[str, Dict[str, Any]]) -> Iterator[str]:
    """A line for each size and engine."""
    for events, activities in SIZES:
        draw = random.Random(events)
        script = "\n".join(drawn_script(events, events, activities))
        moves = [(draw.randrange(events), draw.randrange(60)) for _ in range(MOVES)]
        for name, how in engines.items():
            with Bench.from_script(script, **how) as bench:
                bench.set_times({event: draw.randrange(60) for event in range(events)})
                figures = moves_a_second(bench, moves)
                yield f"{events:>7} {name:>8} {figures[0]:>11,.0f} {figures[1]:>9,.0f} {journal_room(bench, moves):>7.0f}"


def main(words: Sequence[str]) -> None:
    """Prints a line for each size of moves, and for each seed of regions."""
    program = words[0] if words else PROGRAM
    engines: Dict[str, Dict[str, Any]] = {"program": {"program": program}}
    engines.update({"library": {"engine": "library", "library": library} for library in words[1:2]})
    print(f"{'events':>7} {'engine':>8} {'one by one':>11} {'moves':>9} {'journal':>7}")
    for line in measured_moves(engines):
        print(line, flush=True)
    print(f"{'seed':>4} {'why':>8} {'why hard':>8} {'report':>8} {'edit':>8}")
    with tempfile.TemporaryDirectory() as folder:
        for seed in SEEDS:
            figures = measure(Path(folder), seed, program)
            print(f"{seed:>4} " + " ".join(f"{figure:>8.3f}" for figure in figures), flush=True)


if __name__ == "__main__":
    main(sys.argv[1:])
