"""Sets of residues of a period as numbers: the bit of a residue is set if the set contains it."""

from typing import List


def listed(bits: int) -> List[int]:
    """The residues of a set, ascending."""
    digits, residues, place = bin(bits)[:1:-1], [], -1
    while (place := digits.find("1", place + 1)) >= 0:
        residues.append(place)
    return residues


def moved(bits: int, step: int, period: int) -> int:
    """Each residue shifted by the step, around the period."""
    step %= period
    return (bits << step | bits >> (period - step)) & ((1 << period) - 1)


def spread(bits: int, first: int, width: int, period: int) -> int:
    """Each residue shifted by each step from `first` to `first + width`."""
    spread_bits, done = moved(bits, first, period), 0
    while done < min(width, period - 1):
        step = min(done + 1, width - done)
        spread_bits |= moved(spread_bits, step, period)
        done += step
    return spread_bits


def run_of(first: int, length: int, period: int) -> int:
    """This many residues, one after the other around the period."""
    return spread(1 << first, 0, length - 1, period) if length else 0
