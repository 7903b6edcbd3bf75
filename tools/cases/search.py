"""Random cases of crates/pesp_search: optima, sizes of trees, and the places of timetables in them."""

import random
from typing import Dict, Iterator, List, NamedTuple, Tuple

from cases import networks
from cases.sweeps import sweeps
from cases.terms import fact, numbers, used
from tests.model import Model

CRATE = "pesp_search"
NETWORKS = 80
MOST_TIMES = 600
MOST_NODES = 250
MOST_PLACES = 3

USED: Dict[str, List[str]] = {
    "std.proofs.Common": ["pos", "negsuc", "refl", "[]", "◌∷◌", "Some"],
    **networks.USED,
    "pesp_search.specs.declared.answer.Answer.TheVariants": ["Infeasible"],
    "pesp_search.specs.Optima": ["IsAnswer", "IsOptimum"],
    "pesp_search.specs.Paths": ["timetable_of"],
    "pesp_search.specs.Tree": ["IsPlaceOf", "IsTreeSize"],
    "pesp_search.proofs.Counted": ["place_of_is", "tree_size_is"],
    "pesp_search.proofs.Enumerated": ["infeasible_is", "optimum_is"],
}


class Tree(NamedTuple):
    """How many nodes a tree has, the places of the timetables in it, and the most sweeps at one of its nodes."""

    size: int
    places: List[Tuple[List[int], int]]
    most_sweeps: int


def tree_of(network: Model) -> Tree:
    events = sorted(network.events)
    places: List[Tuple[List[int], int]] = []
    nodes = most_sweeps = 0

    def walk(pushed: Dict[int, int]) -> None:
        nonlocal nodes, most_sweeps
        most_sweeps = max(most_sweeps, sweeps(network, pushed))
        rows = network.rows(pushed)
        if not all(rows.values()):
            return
        if len(pushed) == len(events):
            places.append((list(pushed.values()), nodes))
            return
        event = events[len(pushed)]
        for time in sorted(rows[event]):
            nodes += 1
            walk({**pushed, event: time})

    walk({})
    return Tree(nodes, places, most_sweeps)


def answered(network: Model, name: str, number: int) -> List[str]:
    best = network.best()
    if best is None:
        return fact(f"answer_{number}", f"IsAnswer {name} Infeasible", f"infeasible_is {name} refl")
    times = numbers(best[1][event] for event in sorted(best[1]))
    return fact(f"optimum_{number}", f"IsOptimum {name} (timetable_of {name} ({times})) {best[0]}", f"optimum_is {name} ({times}) {best[0]} refl refl")


def found(draw: random.Random, number: int) -> Iterator[str]:
    network = networks.drawn(draw, MOST_TIMES)
    name = f"network_{number}"
    yield from networks.named(network, name)
    yield from answered(network, name, number)
    tree = tree_of(network)
    if tree.size > MOST_NODES:
        return
    yield from fact(f"size_{number}", f"IsTreeSize {name} {tree.size}", f"tree_size_is {name} {tree.most_sweeps} {tree.size} refl")
    for place, (times, nodes) in enumerate(draw.sample(tree.places, min(MOST_PLACES, len(tree.places)))):
        statement = f"IsPlaceOf {name} ({numbers(times)}) {nodes}"
        yield from fact(f"place_{number}_{place}", statement, f"place_of_is {name} {tree.most_sweeps} ({numbers(times)}) {nodes} refl")


def lines(draw: random.Random) -> Iterator[str]:
    yield from used(USED)
    yield ""
    for number in range(NETWORKS):
        yield from found(draw, number)
