"""Results of searches that may differ, judged by the program over the same networks."""

from typing import Dict, List, NamedTuple, Optional

# The numbers of the header.
NOTHING_YET, BEST_SO_FAR, OPTIMUM, NO_TIMETABLE = range(4)


class Searched(NamedTuple):
    """The result of a search: its network as a script, its timetable if any, its cost, its lower bound, a complete reply that is
    the optimum's, and its state if it is a price, which has no timetable."""

    script: bytes
    times: Dict[int, int]
    cost: int
    bound: int
    optimum: bytes = b""
    state: Optional[int] = None


def numbers_in(shown: bytes, width: int) -> List[int]:
    return [int.from_bytes(shown[place : place + width], "little") for place in range(0, len(shown), width)]


def times_in(reply: bytes) -> Dict[int, int]:
    """The timetable of an optimum."""
    rows = [line.split() for line in reply.splitlines()[1:]]
    return {int(event): int(time) for event, time in rows}


def searched_by_try(script: bytes, reply: bytes) -> Searched:
    """The same for a reply to `try`."""
    if not reply.startswith(b"stopped"):
        return Searched(script, {}, 0, 0, reply)
    cost = reply.split()[1]
    return Searched(script, times_in(reply), 0 if cost == b"none" else int(cost), 0)


def emptying(script: bytes) -> List[bytes]:
    """The lines that remove the network of a script."""
    rows = [line.split() for line in script.splitlines()]
    activities = [b"drop activity " + row[2] for row in rows if row[:2] == [b"add", b"activity"]]
    return activities + [b"drop event " + row[2] for row in rows if row[:2] == [b"add", b"event"]]


def lines_of_search(searched: Searched) -> List[bytes]:
    times = [b"time %d %d" % pair for pair in searched.times.items()]
    return [*searched.script.splitlines(), *times, b"violations", b"cost", b"optimum", *emptying(searched.script)]


def fault_of_search(searched: Searched, violations: bytes, cost: bytes, optimum: bytes) -> Optional[str]:
    """A timetable meets everything at its cost, and no optimum is below the bound, or dearer."""
    if searched.state is not None:
        return None if is_price(searched, optimum) else f"{searched}, and the optimum is {optimum!r}"
    if searched.optimum:
        return None if searched.optimum == optimum else f"{searched}, and the optimum is {optimum!r}"
    if searched.times and (violations, cost) != (b"violations 0\n", b"cost %d\n" % searched.cost):
        return f"{searched}, of which the program tells {violations!r} and {cost!r}"
    words = optimum.split()
    is_bound = words[0] == b"infeasible" or searched.bound <= int(words[1])
    is_bound = is_bound and not (searched.times and (words[0] == b"infeasible" or int(words[1]) > searched.cost))
    return None if is_bound else f"{searched}, and the optimum is {optimum!r}"


def is_price(priced: Searched, optimum: bytes) -> bool:
    """Whether a price may have this result if that is the optimum of its network."""
    words = optimum.split()
    least = None if words[0] == b"infeasible" else int(words[1])
    is_below = least is None or priced.bound <= least
    if priced.state == NOTHING_YET:
        return priced.cost == 0 and is_below
    if priced.state == BEST_SO_FAR:
        return least is not None and is_below and least <= priced.cost
    return (priced.state, priced.cost, priced.bound) == ((NO_TIMETABLE, 0, 0) if least is None else (OPTIMUM, least, least))
