"""Each memory request refused in turn: alone, and with all later ones."""

import re
from typing import Callable, List, Optional, Sequence, Tuple

from hostile.inputs import Input, ends_of_replies
from hostile.served import ALWAYS, Came, Order, Served
from hostile.suite import Suite, Wrong

AT_A_LINE = re.compile(rb"pespbench: out of memory at line (\d+)\n")
IN_A_FILE = re.compile(rb"pespbench: (activities|fixed|times) file, record (\d+): out of memory\n")
FILES = [b"activities", b"fixed", b"times"]
# The number of requests that are tried, spread over all of them, unless all are requested.
MOST_REQUESTS = 1_000
TRIED_REQUESTS = 100


# The places where memory ran out, as numbers that grow with the work.
Place = Tuple[int, int, int]


def place_of(came: Came, plain: Came, ends: Sequence[int]) -> Optional[Place]:
    """The place where a run reports that memory ran out, as a number that grows with the work; None if the report is invalid."""
    line, record = AT_A_LINE.fullmatch(came.error), IN_A_FILE.fullmatch(came.error)
    if came.status != 1:
        return None
    if record:
        return (0, 1 + FILES.index(record[1]), int(record[2])) if came.output == b"" else None
    if not line:
        return None
    number = int(line[1])
    wanted = plain.output[: ends[max(number - 1, 0)]] if number < len(ends) else None
    return (number, 0, 0) if came.output == wanted else None


def judge(came: Came, plain: Came, ends: Sequence[int], before: Place) -> Tuple[Optional[str], Place]:
    """The fault of a run, if any, and how far its work progressed."""
    if came.told() == plain.told():
        return None, before
    place = place_of(came, plain, ends)
    if place is None:
        return "neither the whole output nor want of memory after just the replies before its line", before
    if place[0] < before[0]:
        return f"line {place[0]} after line {before[0]} was answered", before
    return None, place


def step_of(suite: Suite, requests: int) -> int:
    return 1 if suite.is_whole or requests <= MOST_REQUESTS else requests // TRIED_REQUESTS


def refuse_each(suite: Suite, given: Input, served: Served, name: str, last_of: Callable[[int], int]) -> None:
    """Refuses one request after the other until none is refused any more."""
    plain = served.run()
    step = step_of(suite, plain.requests)
    ends = ends_of_replies(given.given, plain.output)
    is_refused = AT_A_LINE.fullmatch(plain.error) or IN_A_FILE.fullmatch(plain.error)
    suite.holds(f"{given.name}: no want of memory where none is refused", not is_refused)
    wrong: List[Wrong] = []
    tried, whole, before, request = 0, 0, (0, 0, 0), 1
    while True:
        came = served.run(Order(refuse_from=request, refuse_to=last_of(request)))
        if came.refused == 0:
            break
        fault, before = judge(came, plain, ends, before)
        wrong += [(request, fault, came)] if fault else []
        tried, whole, request = tried + 1, whole + (came.told() == plain.told()), request + step
    suite.found(f"{given.name}: each request for memory refused, {name}", tried, wrong)
    suite.holds(f"{given.name}: requests for memory are seen", tried)
    suite.note(f"{whole} of those {name} done without")
    suite.holds(f"{given.name}: the same without a refusal at the end", came.told() == plain.told())


def growths(suite: Suite, given: Input) -> None:
    with Served(suite.library, [suite.program, *given.words], given.folder, given.given) as served:
        refuse_each(suite, given, served, "alone", lambda request: request)
        refuse_each(suite, given, served, "with all later ones", lambda request: ALWAYS)
