"""Prices of sessions, compared with the program's optimum after `fix` or `span`. For the group `embedded`."""

import random
from pathlib import Path
from types import ModuleType
from typing import Any, Callable, Dict, List, Sequence, Tuple

from tests.file_cases import TWO
from tests.harness import NAMES, TOP, Suite, rows_of, run
from tests.rules import Row
from tests.searches import NO_TIMETABLE, OPTIMUM, drawn_activities
from tests.sessions import CLOSED, DONE, REFUSED, Library, Priced

FIXED = b"1; 7\n"
# Of the second train, which fits at two minutes.
PICTURE = b"     #\n" * 7 + b"----##----\n    ^\n0\nat best 4, at worst 5\n"


def price_of(price: Callable[[int, int, int], Priced], number: int, value: int) -> Tuple[int, int]:
    """State and cost at the end, by calls with twice the nodes each time; no cost if another one equaled the lower bound before."""
    least = []
    for step in range(40):
        state, cost, bound, *_ = price(number, value, 2**step)
        least += [cost] if state and cost == bound else []
        if state >= OPTIMUM:
            break
    return state, cost if set(least) <= {cost} else -1


def least_costs(suite: Suite, rows: List[Row], edits: Sequence[Tuple[str, str]]) -> List[Tuple[int, int]]:
    """The same by the program, with each edit in turn, which the other line undoes."""
    lines = "".join(f"{edit}\noptimum\n{back}\n" for edit, back in edits)
    activities, fixed = (suite.file(name, text) for name, text in zip(NAMES, (rows_of(rows), FIXED)))
    replies = run([suite.program, "--fixed", fixed, activities], given=lines.encode())["standard output"].split(b"\n")
    firsts = [reply.split() for reply in replies if reply.startswith((b"optimum", b"infeasible"))]
    return [(OPTIMUM, int(words[1])) if words[1:] else (NO_TIMETABLE, 0) for words in firsts]


def drawn_prices(suite: Suite, library: Library) -> None:
    """A price is the least cost after the edit, and requesting it changes nothing."""
    draw = random.Random(82)
    for number in range(5):
        rows = drawn_activities(draw)
        library.open(60, rows_of(rows), FIXED, b"")
        before = library.ask(b"dump"), library.times(), library.search(2**40)
        event, (activity, _, _, lower, upper, _) = draw.randrange(1, 21), draw.choice(rows)
        values = range(number, 120, 7)
        times = [time for time in values if time < 60]
        wanted = {"times": least_costs(suite, rows, [(f"fix {event} {time}", f"unfix {event}") for time in times])}
        wanted["tensions"] = least_costs(suite, rows, [(f"span {activity} {tension} {tension}", f"span {activity} {lower} {upper}") for tension in values])
        came = {"times": [price_of(library.price, event, time) for time in times]}
        came["tensions"] = [price_of(library.price_tension, activity, tension) for tension in values]
        suite.note(f"prices {number}, of event {event} and activity {activity}", wanted, came)
        left = library.ask(b"dump"), library.times(), library.search(0)
        suite.note(f"prices {number}: nothing changed", {"left": before}, {"left": left})
        library.close()


def prices_at_the_rims(suite: Suite, library: Library) -> None:
    """Prices beside a window, of no event or activity, at no time, of the greatest tensions, and of a closed session."""
    library.open(10, TWO, b"", b"")
    library.ask(b"fix 1 0")
    library.ask(b"window 2 4 1")
    price, tension = library.price, library.price_tension
    steps: Dict[str, Tuple[Callable[[], object], object]] = {
        "in the window": (lambda: price(2, 4, 100), (OPTIMUM, 4, 4, DONE, 0)),
        "beside it": (lambda: price(2, 5, 100), (NO_TIMETABLE, 0, 0, DONE, 0)),
        "beside a fixed time": (lambda: price(1, 1, 0), (NO_TIMETABLE, 0, 0, DONE, 0)),
        "no such event": (lambda: price(9, 0, 100), (7, 7, 7, REFUSED, 2)),
        "no event at all": (lambda: price(2**32 - 1, 0, 100), (7, 7, 7, REFUSED, 2)),
        "beyond the period": (lambda: price(2, 10, 100), (7, 7, 7, REFUSED, 4)),
        "a tension": (lambda: tension(1, 4, 100), (OPTIMUM, 2, 2, DONE, 0)),
        "the same a period later": (lambda: tension(1, 14, 100), (OPTIMUM, 2, 2, DONE, 0)),
        "the greatest that is the same": (lambda: tension(1, 65_534, 100), (OPTIMUM, 2, 2, DONE, 0)),
        "the greatest": (lambda: tension(1, 65_535, 100), (NO_TIMETABLE, 0, 0, DONE, 0)),
        "a tension of the other": (lambda: tension(2, 6, 100), (OPTIMUM, 2, 2, DONE, 0)),
        "the optimum after them": (lambda: library.ask(b"optimum"), b"optimum 4 2\n1 0\n2 4\n"),
        "no such activity": (lambda: (tension(9, 0, 100), library.told.place), ((7, 7, 7, REFUSED, 6), 0)),
        "no activity at all": (lambda: tension(2**32 - 1, 0, 100), (7, 7, 7, REFUSED, 6)),
        "close": (library.close, None),
        "a closed session": (lambda: price(1, 0, 100), (7, 7, 7, CLOSED, 0)),
        "a tension of a closed session": (lambda: tension(1, 0, 100), (7, 7, 7, CLOSED, 0)),
    }
    for title, (call, wanted) in steps.items():
        suite.note(f"prices: {title}", {"came": wanted}, {"came": call()})


def draws_prices(suite: Suite, title: str, command: Path, **how: Any) -> None:
    """What embedded/prices.c draws, as a command."""
    came = run([command, "10", TOP / "examples/two-trains/activities", suite.file("at-0", b"1; 0\n"), "2"], **how)
    suite.note(title, {"status": 0, "standard output": PICTURE}, came)


def prices(suite: Suite, module: ModuleType, path: Path) -> None:
    library = Library(module, path)
    drawn_prices(suite, library)
    prices_at_the_rims(suite, library)
