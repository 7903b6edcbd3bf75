"""The number of sweeps over all pairs that reach the domains, for the proofs of crates/pesp_domains."""

from typing import Mapping, Set, Tuple

from tests.network import Network

Pairs = Set[Tuple[int, int]]


def stands(network: Network, pushed: Mapping[int, int], pairs: Pairs, event: int, residue: int) -> bool:
    """Whether a pair is admitted and has a partner among the pairs along each activity, at each end that is its event."""
    if not network.admits(event, residue) or pushed.get(event, residue) != residue:
        return False
    for row in network.activities.values():
        if row[0] == event and not any(other == row[1] and network.allows(row, residue, time) for other, time in pairs):
            return False
        if row[1] == event and not any(other == row[0] and network.allows(row, time, residue) for other, time in pairs):
            return False
    return True


def sweeps(network: Network, pushed: Mapping[int, int]) -> int:
    """After how many sweeps each remaining pair is supported by the others."""
    pairs = {(event, residue) for event in network.events for residue in range(network.period)}
    count = 0
    while True:
        left = {pair for pair in pairs if stands(network, pushed, pairs, *pair)}
        if left == pairs:
            return count
        pairs, count = left, count + 1
