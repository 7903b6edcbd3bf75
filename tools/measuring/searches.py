"""The cost of a search for the optimum, on a set of small networks that is the same in each run."""

import time
from pathlib import Path
from typing import List, Optional, Sequence, Tuple

from measuring.keeper import Network
from measuring.limited import run_limited, shown

EVENTS = [8, 10, 12, 14, 16, 20, 24, 30]
SEEDS = [1, 2]
ACTIVITIES_OF_AN_EVENT = 2
WIDTHS = (2, 4)
# The least width of a span, and the range above it.
WIDE = (8, 20)
SECONDS = 60
MOST_NODES = 2**17
COUNTED_NODES = 2_000


def ends(network: Network, limit: int) -> bool:
    """Whether a search with this many nodes ends."""
    return not network.answers([f"try {limit}"]).startswith("stopped")


def nodes_of(network: Network) -> Optional[int]:
    """The least limit at which the search ends, or None if it is more than the greatest one tried."""
    high = 1
    while not ends(network, high):
        if high == MOST_NODES:
            return None
        high *= 2
    low = high // 2
    while high - low > 1:
        middle = (low + high) // 2
        low, high = (low, middle) if ends(network, middle) else (middle, high)
    return high


def seconds_of(network: Network, limit: int) -> float:
    began = time.perf_counter()
    network.answers([f"try {limit}"])
    return time.perf_counter() - began


def measure_search(program: Path, folder: Path, events: int, seed: int) -> Tuple[Optional[int], float, float]:
    """The least limit at which the search ends, its instructions for each node and its seconds, on one network of the set.

    If that is great, the instructions are those of a lower limit. By cycles a limit bounds work, and possibly no node is visited.
    """
    rows = events * ACTIVITIES_OF_AN_EVENT
    network = Network(program, folder, rows, events, lambda event: False, seed, WIDTHS)
    nodes = nodes_of(network)
    counted = min(nodes or COUNTED_NODES, COUNTED_NODES)
    instructions = network.takes([f"try {counted}"]) - network.takes([])
    return nodes, instructions / counted, seconds_of(network, nodes or MOST_NODES)


def seconds_of_optimum(program: Path, folder: Path, events: int, seed: int) -> str:
    rows = events * ACTIVITIES_OF_AN_EVENT
    network = Network(program, folder, rows, events, lambda event: False, seed, WIDE)
    network.lines.write_text("optimum\n")
    return shown(run_limited(network.words, network.lines, network.memory, SECONDS).seconds, SECONDS)


def print_wide(programs: Sequence[Path], folder: Path) -> None:
    """The seconds of each program for the optimum of the same networks with wide spans."""
    print("\nseconds of a processor for the optimum, with spans of 8 to 27" + (", before and now" if programs[1:] else ""))
    for events in EVENTS:
        for seed in SEEDS:
            figures = [seconds_of_optimum(program, folder, events, seed) for program in programs]
            print(f"{events:>7} {seed:>5}" + "".join(f" {figure:>9}" for figure in figures), flush=True)


def columns(nodes: Optional[int], figure: float, seconds: float) -> str:
    return f"{nodes or f'> {MOST_NODES}':>9} {figure:>9.0f} {seconds:>9.3f}"


def print_searches(programs: Sequence[Path], folder: Path) -> None:
    """The figures of each program, compared."""
    print("\nthe least limit of `try` that ends the search, instructions for each node of it, and seconds" + (", before and now" if programs[1:] else ""))
    print(f"{'events':>7} {'seed':>5}" + f" {'limit':>9} {'a node':>9} {'seconds':>9}" * len(programs))
    ended: List[List[Optional[int]]] = [[] for _ in programs]
    for events in EVENTS:
        for seed in SEEDS:
            figures = [measure_search(program, folder, events, seed) for program in programs]
            print(f"{events:>7} {seed:>5} " + " ".join(columns(*each) for each in figures), flush=True)
            for nodes, (found, _, _) in zip(ended, figures):
                nodes.append(found)
    for nodes in ended:
        print(f"{sum(map(bool, nodes))} end, with {sum(filter(None, nodes))} in sum")
    if programs[1:]:
        shared = [(first, last) for first, last in zip(ended[0], ended[-1]) if first]
        print(f"of those that ended before: {sum(first for first, _ in shared)}, now {sum(last or 0 for _, last in shared)}")
    print_wide(programs, folder)
