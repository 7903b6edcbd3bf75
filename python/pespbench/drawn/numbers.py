"""Whole numbers that are the same for the same seed, on every machine and in every version of Python."""

from __future__ import annotations

import random
from typing import Sequence, TypeVar

Entry = TypeVar("Entry")


class Numbers:
    """A stream of numbers, all from `Random.random`, the only method whose values Python guarantees."""

    def __init__(self, seed: int) -> None:
        self._random = random.Random(seed)

    def below(self, limit: int) -> int:
        """A number from 0 to limit - 1."""
        return int(self._random.random() * limit)

    def between(self, least: int, most: int) -> int:
        """A number from least to most, both included."""
        return least + self.below(most - least + 1)

    def shuffled(self, listed: Sequence[Entry]) -> list[Entry]:
        """The same entries in a random order."""
        order = list(listed)
        for last in range(len(order) - 1, 0, -1):
            other = self.below(last + 1)
            order[last], order[other] = order[other], order[last]
        return order
