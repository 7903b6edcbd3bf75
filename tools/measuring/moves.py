"""The cost of an optimiser's move: a time set, and the cost returned."""

from pathlib import Path
from typing import Sequence, Tuple

from measuring.keeper import Network
from measuring.network import PERIOD, Numbers

# Events and activities.
SIZES = [(108, 140), (2_048, 2_645), (20_000, 100_000)]
MOVES = 1_000


def measure_moves(program: Path, folder: Path, events: int, rows: int) -> Tuple[float, float]:
    """The instructions of a `time` and of a `cost` after it, if each event has a time."""
    network, numbers = Network(program, folder, rows, events, lambda event: False), Numbers(events)
    timed = [f"time {event} {time}" for event, time in enumerate(network.times)]
    moves = [f"time {numbers.below(events)} {numbers.below(PERIOD)}" for _ in range(MOVES)]
    start = network.takes(timed)
    alone = network.takes(timed + moves) - start
    told = network.takes(timed + [line for move in moves for line in (move, "cost")]) - start
    return alone / MOVES, (told - alone) / MOVES


def print_moves(programs: Sequence[Path], folder: Path) -> None:
    print("\ninstructions of a move: a time set, and the cost told after it")
    print(f"{'events':>7} {'activities':>10}" + f" {'time':>10} {'cost':>10}" * len(programs))
    for events, rows in SIZES:
        figures = [figure for program in programs for figure in measure_moves(program, folder, events, rows)]
        print(f"{events:>7} {rows:>10}" + "".join(f" {figure:>10.0f}" for figure in figures))
