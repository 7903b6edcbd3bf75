"""Random cases of crates/pesp_domains: the domains of networks, with and without pushed pairs."""

import random
from typing import Dict, Iterator, List

from cases import networks
from cases.sweeps import sweeps
from cases.terms import defined, fact, fields, listed, numbers, one, used
from tests.network import Network

CRATE = "pesp_domains"
NETWORKS = 100

USED: Dict[str, List[str]] = {
    "std.proofs.Common": ["ℕ", "◌==◌", "pos", "negsuc", "refl", "List", "[]", "◌∷◌", "map", "Some"],
    "std.specs.List": ["list_any", "range_with_len"],
    **networks.USED,
    "pesp_domains.specs.declared.pair.Pair": ["Pair"],
    "pesp_domains.specs.Domains": ["IsDomain"],
    "pesp_domains.proofs.Sweeps": ["swept_row"],
}


def pushed_drawn(draw: random.Random, network: Network) -> Dict[int, int]:
    events = sorted(network.events)
    return {event: draw.randrange(network.period) for event in events[: draw.choice([0, 0, 1, 2])]}


def pairs(pushed: Dict[int, int]) -> str:
    """Pushed pairs as an argument."""
    return one(listed(fields({"event": str(event), "residue": str(residue)}) for event, residue in pushed.items()))


def rows(draw: random.Random, number: int) -> Iterator[str]:
    network = networks.drawn(draw)
    name = f"network_{number}"
    yield from networks.named(network, name)
    pushed = pushed_drawn(draw, network)
    count = sweeps(network, pushed)
    for event, row in sorted(network.rows(pushed).items()):
        statement = f"HasDomain {name} {pairs(pushed)} {event} {one(numbers(sorted(row)))}"
        yield from fact(f"domain_{number}_of_{event}", statement, f"swept_row {name} {pairs(pushed)} {count} refl {event} _ refl refl")


def lines(draw: random.Random) -> Iterator[str]:
    yield from used(USED)
    yield ""
    row = "map (λ r. list_any (λ s. s == r) residues) (range_with_len 0 I.period)"
    kind = "Network → List Pair → ℕ → List ℕ → Type 0"
    yield from defined("these residues are the event's domain", "HasDomain", kind, "HasDomain I pushes e residues", f"IsDomain I pushes e ({row})")
    for number in range(NETWORKS):
        yield from rows(draw, number)
