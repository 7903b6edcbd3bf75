"""Mends a timetable: the nearest one, with the smallest greatest move."""

from __future__ import annotations

import time as clock
from dataclasses import dataclass, field
from typing import Callable, Dict, Mapping, Optional

from pespbench.client import Bench
from pespbench.near import Near, Wish
from pespbench.searching import check_limits

# The share of the remaining time that one greatest move may use; the rest is for later ones.
SHARE = 1 / 3


@dataclass(frozen=True)
class Mended:
    """The nearest known timetable in which no event moves more than `most` minutes.

    `is_least` says whether fewer minutes are known to be too few; `most` is None while no number is known to be enough.
    """

    near: Near = field(default_factory=Near)
    most: Optional[int] = None
    is_least: bool = False


# A callback that receives each Mended.
Watcher = Callable[[Mended], object]


def mended(
    bench: Bench,
    *,
    held: Optional[Mapping[int, int]] = None,
    most: Optional[int] = None,
    seconds: float = 60.0,
    watch: Optional[Watcher] = None,
) -> Mended:
    """The nearest timetable to the working timetable that meets everything; no event moves more than necessary.

    `held` events are at these times, as in `near`. `most` gives the greatest move; by default the least sufficient one is
    searched for. `watch` is called after each improvement. The bench does not change. Raises what `near` raises.
    """
    check_limits(seconds, 1)
    Wish.of(bench.network, bench.times, held or {}, most, {})
    mending = Mending(bench, held or {}, clock.monotonic() + seconds, watch)
    if most is None:
        mending.narrow()
    else:
        mending.known = Mended(most=most)
    mending.finish()
    return mending.known


class Mending:
    """What is known about the greatest move and the nearest timetable."""

    def __init__(self, bench: Bench, held: Mapping[int, int], until: float, watch: Optional[Watcher]) -> None:
        self._bench, self._held, self._until, self._watch = bench, held, until, watch
        self.known = Mended()

    def narrow(self) -> None:
        """Finds the smallest sufficient greatest move, by bisection, as far as the time allows."""
        # The lower bound is too few; numbers between it and the sufficient one are undecided if the time was over.
        low, is_least, first = self._too_few(), True, self._tried(None)
        if not first.times:
            self._tell(Mended(first))
            return
        self._tell(Mended(first, first.greatest))
        while self.known.near.greatest - low > 1:
            middle = (low + self.known.near.greatest) // 2
            near = self._tried(middle)
            if near.times:
                self._tell(Mended(near, near.greatest))
            else:
                low, is_least = middle, is_least and near.is_proved
        self._tell(Mended(self.known.near, self.known.near.greatest, is_least))

    def finish(self) -> None:
        """Finds the nearest timetable with the greatest move that is known."""
        known = self.known
        if known.near.is_proved and not known.near.times:
            return
        for near in self._bench.near(held=self._held, most=known.most, seconds=self._left()):
            if near.times or not known.near.times:
                self._tell(Mended(near, known.most, known.is_least))

    def _too_few(self) -> int:
        """A number of minutes that is too small, by the domains."""
        period, times = self._bench.period, {**self._bench.times, **self._held}
        with self._bench.trial():
            self._bench._all(f"fix {event} {time}" for event, time in self._held.items())
            domains = self._bench.domains()
        far: Dict[int, int] = {
            event: min(min((time - times[event]) % period, (times[event] - time) % period) for time in domain)
            for event, domain in domains.items() if event in times and domain.residues
        }  # fmt: skip
        return max(far.values(), default=0) - 1

    def _tried(self, most: Optional[int]) -> Near:
        """The first timetable within this many minutes, or the result so far if none was found in time."""
        near = Near()
        # The sum of minutes does not matter: the first timetable found is enough.
        for near in self._bench.near(held=self._held, most=most, seconds=SHARE * self._left()):
            if near.times:
                break
        return near

    def _left(self) -> float:
        return max(0.0, self._until - clock.monotonic())

    def _tell(self, known: Mended) -> None:
        self.known = known
        if self._watch is not None:
            self._watch(known)
