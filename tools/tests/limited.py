"""The replies to `try` with more and more nodes: never a dearer timetable, and the optimum at the end."""

import random
from pathlib import Path
from typing import Iterator, Tuple

from tests.harness import Suite, run, within

NETWORKS = 24
LIMITS = [1, 2, 3, 5, 8, 13, 21, 34, 55, 89, 144, 233, 377]


def drawn_rows(draw: random.Random, events: int, activities: int, period: int) -> Iterator[str]:
    """Activities of a network that has a timetable, whose spans admit up to half of all residues."""
    times = [draw.randrange(period) for _ in range(events)]
    for number in range(1, activities + 1):
        first, last = draw.sample(range(events), 2)
        width = draw.randrange(period // 2)
        lower = (times[last] - times[first]) % period - draw.randint(0, width)
        yield f"{number}; {first}; {last}; {lower}; {lower + width}; {draw.randint(0, 9)}\n"


def told(suite: Suite, activities: Path, period: int, line: bytes) -> Tuple[bool, int]:
    """The first words of the reply: whether the search ended, and the cost, which is the greatest if nothing was found."""
    words = run([suite.program, "--period", str(period), activities], given=line)["standard output"].split()
    return words[0] == b"optimum", int(words[1]) if words[1].isdigit() else 2**64


def network(suite: Suite, draw: random.Random, number: int) -> None:
    events, period = draw.randint(6, 30), draw.choice([12, 60, 120])
    rows = drawn_rows(draw, events, draw.randint(events, 2 * events), period)
    activities = suite.file(f"activities{number}", "".join(rows).encode())
    tries = [told(suite, activities, period, b"try %d" % limit) for limit in LIMITS]
    costs = [cost for _, cost in tries]
    suite.holds(f"network {number}: costs {costs} never rise", costs == sorted(costs, reverse=True))
    ended = {cost for is_end, cost in tries if is_end}
    suite.holds(f"network {number}: one cost at the end", len(ended) <= 1 and ended <= {costs[-1]})


@within(240)
def larger_limits(suite: Suite) -> None:
    draw = random.Random(5_703)
    for number in range(NETWORKS):
        network(suite, draw, number)


GROUPS = [larger_limits]
