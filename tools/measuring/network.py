"""Networks that are the same in each run, as files and as commands."""

from typing import Iterable, Iterator, List, Optional, Sequence, Tuple

from tests.limits import MOST_EVENTS
from tests.rules import Row

PERIOD = 60
ACTIVITIES_OF_AN_EVENT = 5
EVENTS_OF_A_FIXED_ONE = 10


class Numbers:
    """Numbers that are the same in each run: a linear congruential generator."""

    def __init__(self, seed: int) -> None:
        self.state = seed

    def below(self, limit: int) -> int:
        self.state = (self.state * 6_364_136_223_846_793_005 + 1_442_695_040_888_963_407) % 2**64
        return (self.state >> 33) % limit

    def shuffled(self, count: int) -> List[int]:
        places = list(range(count))
        for last in range(count - 1, 0, -1):
            other = self.below(last + 1)
            places[last], places[other] = places[other], places[last]
        return places


def events_of(rows: int) -> int:
    """The number of events that this many activities name."""
    return max(2, min(MOST_EVENTS, rows // ACTIVITIES_OF_AN_EVENT))


def activity_rows(
    numbers: Numbers,
    rows: int,
    times: Sequence[int],
    are_met: bool = False,
    widths: Tuple[int, int] = (8, 20),
    end: Optional[int] = None,
    period: int = PERIOD,
) -> Iterator[Row]:
    """Activities in no order of their numbers, which name each event; about a tenth of them are violated, or none.

    Widths of spans are at least the first, and less than the sum of both. All activities lead to the end, if one is given.
    """
    events = len(times)
    order = numbers.shuffled(events)
    for place in range(rows):
        # The step is coprime to the modulus, a prime, so no number is repeated.
        name = (place * 7_919 + 17) % 1_000_003
        first, last = order[place % events], numbers.below(events)
        last = last if end is None else end
        off = 0 if numbers.below(10) or are_met else 1
        lower = (times[last] - times[first]) % period - numbers.below(widths[0]) + off * 20
        yield name, first, last, lower, lower + widths[0] + numbers.below(widths[1]), numbers.below(1_000)


def fixed_rows(numbers: Numbers, times: Sequence[int]) -> Iterator[Tuple[int, int]]:
    """A fixed time for each tenth event; about a tenth of them are violated."""
    for event in range(0, len(times), EVENTS_OF_A_FIXED_ONE):
        yield event, (times[event] + (0 if numbers.below(10) else 1)) % PERIOD


def text_of(rows: Iterable[Iterable[int]]) -> str:
    return "".join("; ".join(map(str, row)) + "\n" for row in rows)
