"""The model's domains and optima, which are computed quickly, compared with those by enumeration, at short periods."""

import itertools
import random
from typing import Dict, Optional, Set, Tuple

from tests import model
from tests.harness import Suite
from tests.parsing import EDITS
from tests.streams import drawn_lines

NETWORKS = 150
# Random networks with more timetables are left out.
MOST_TIMETABLES = 20_000


def tried_rows(network: model.Model) -> Dict[int, Set[int]]:
    """The domains, by removing pairs one by one as long as one of them lacks a partner."""
    rows = {event: {residue for residue in range(network.period) if network.admits(event, residue)} for event in network.events}
    changed = True
    while changed:
        changed = False
        for row in network.activities.values():
            first, last = rows[row[0]], rows[row[1]]
            lone = {r for r in first if not any(network.allows(row, r, s) for s in last)}
            first -= lone
            lonely = {s for s in last if not any(network.allows(row, r, s) for r in first)}
            last -= lonely
            changed = changed or bool(lone) or bool(lonely)
    return rows


def tried_best(network: model.Model) -> Optional[Tuple[int, Dict[int, int]]]:
    """The least cost of all timetables, and the first of it, or None."""
    events = sorted(network.events)
    every = (dict(zip(events, times)) for times in itertools.product(range(network.period), repeat=len(events)))
    members = [(network.cost_of(times), times) for times in every if network.is_member(times)]
    # The first of those that are equal is taken.
    return min(members, key=lambda found: found[0]) if members else None


def drawn_network(draw: random.Random) -> model.Model:
    """The result of random edits at a period of 2 to 12."""
    network = model.Model(draw.randint(2, 12))
    for line in drawn_lines(draw, network.period, 12):
        if line.decode().startswith(tuple(EDITS)):
            network.reply(line)
    return network


def quick_model(suite: Suite) -> None:
    draw = random.Random(1441)
    for number in range(NETWORKS):
        network = drawn_network(draw)
        if network.period ** len(network.events) <= MOST_TIMETABLES:
            wanted = {"rows": tried_rows(network), "best": tried_best(network)}
            suite.note(f"the model of drawn network {number}", wanted, {"rows": network.rows(), "best": network.best()})


GROUPS = [quick_model]
