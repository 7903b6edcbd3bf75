"""Searches of sessions in numbers, compared with the lines `try` and `optimum` of the program and of other sessions. For
the group `embedded`."""

import ctypes
import random
from itertools import combinations
from pathlib import Path
from types import ModuleType
from typing import Callable, Dict, List, Tuple, TypedDict

from tests.drawn_runs import GREATEST_SHORT, Asked, drawn_run, told_by
from tests.file_cases import TWO
from tests.harness import Suite, rows_of, run
from tests.rules import Row
from tests.sessions import DONE, MEMORY, Library, Number, Numbers, Searched, lines_of

DRAWN = 60
# Lines with their nodes.
SEARCHES = {b"try %d" % limit: limit for limit in [0, 1, 2, 5, 20, 100, 1000]}
NOTHING_YET, BEST_SO_FAR, OPTIMUM, NO_TIMETABLE = range(4)
WORDS = {"stopped": BEST_SO_FAR, "optimum": OPTIMUM}
# An activity for each pair of new events: more independent cycles than the search by cycles accepts, none of them redundant.
TOO_MANY: List[Row] = [(number, *ends, 0, 58, 1) for number, ends in enumerate(combinations(range(100, 147), 2), 1000)]
# The state before a search.
NOTHING: Searched = (NOTHING_YET, 0, 0, [])


class Answer(TypedDict):
    """The contents of a reply to `try` or `optimum`."""

    state: int
    cost: int
    times: List[int]


def read(reply: bytes) -> Answer:
    """State, cost and times of a reply to `try` or `optimum`."""
    first, *rows = reply.decode().splitlines()
    if first in ("stopped none", "infeasible"):
        return {"state": NOTHING_YET if first == "stopped none" else NO_TIMETABLE, "cost": 0, "times": []}
    word, cost, _ = first.split()
    return {"state": WORDS[word], "cost": int(cost), "times": [int(row.split()[1]) for row in rows]}


def with_searches(draw: random.Random, asked: Asked) -> Asked:
    """The run with lines `try` among its lines."""
    lines: List[bytes] = []
    for line in lines_of(asked.commands):
        lines.append(line)
        while draw.randrange(3) == 0:
            lines.append(draw.choice([*SEARCHES]))
    return asked._replace(commands=b"\n".join([*lines, b"try 1000"]))


def meets_all(library: Library, times: Numbers) -> Tuple[bool, Number]:
    """Whether the times meet everything, and their cost; they are the working timetable then."""
    for event, time in zip(library.events(), times):
        library.ask(b"time %d %d" % (event, time))
    return library.ask(b"violations") == b"violations 0\n", library.cost()


def judged(suite: Suite, title: str, found: Searched, apart: Library) -> None:
    """A bound not above the optimum, and times that meet everything at the cost; `apart` has the same instance."""
    state, cost, bound, times = found
    if state in (BEST_SO_FAR, OPTIMUM):
        suite.note(f"{title}: times", {"meet all, cost": (True, cost)}, {"meet all, cost": meets_all(apart, times)})
    best = read(apart.ask(b"optimum"))
    if best["state"] == OPTIMUM:
        suite.holds(f"{title}: the bound {bound} is not above {best['cost']}", bound <= best["cost"] <= (cost if times else best["cost"]))
    ends: Dict[int, Searched] = {OPTIMUM: (OPTIMUM, best["cost"], best["cost"], best["times"]), NO_TIMETABLE: (best["state"], 0, 0, [])}
    suite.note(f"{title}: the end", {"found": ends.get(state, found)}, {"found": found})


def is_further(before: Searched, after: Searched) -> bool:
    """Whether a search of the same instance returns no dearer timetable and no lower bound than the one before it, and ends once."""
    (state, cost, bound, _), (state_after, cost_after, bound_after, _) = before, after
    if state >= OPTIMUM:
        return before == after
    return bound <= bound_after and (state == NOTHING_YET or (state_after != NOTHING_YET and cost_after <= cost))


def drawn_searches(suite: Suite, by_lines: Library, by_number: Library, apart: Library) -> None:
    """A search resumes the one before it, and changes no other reply but the optimum's."""
    draw = random.Random(71)
    for number in range(DRAWN):
        asked = with_searches(draw, drawn_run(draw))
        opened = [library.open(asked.period, asked.activities, asked.fixed, asked.times) for library in (by_lines, by_number, apart)]
        if opened != [DONE] * 3:
            continue
        replies, last = b"", NOTHING
        for line in lines_of(asked.commands):
            title, limit, reply = f"drawn session {number} at {line!r}", SEARCHES.get(line), by_lines.ask(line)
            replies += reply
            if limit is None:
                suite.note(title, {"reply": reply}, {"reply": by_number.ask(line)})
                apart.ask(line)
                last = NOTHING
                continue
            before = by_number.times(), by_number.cost()
            found = by_number.search(limit)
            suite.note(f"{title}: what was", {"left": before}, {"left": (by_number.times(), by_number.cost())})
            if limit > 0:
                suite.holds(f"{title}: {found} is further than {last}", is_further(last, found))
                last = found
            if asked.period <= GREATEST_SHORT:
                judged(suite, title, found, apart)
        suite.note(f"drawn session {number} in the program", told_by(suite, asked), {"replies": replies, "fault": ""})
        for library in (by_lines, by_number, apart):
            library.close()


def drawn_activities(draw: random.Random) -> List[Row]:
    """Forty activities between twenty events, with spans of twenty times around those of some timetable."""
    times = [draw.randrange(60) for _ in range(20)]
    activities: List[Row] = []
    for number in range(1, 41):
        start, end = draw.sample(range(20), 2)
        lower = (times[end] - times[start] - draw.randrange(20)) % 60
        activities.append((number, start + 1, end + 1, lower, lower + 19, draw.randrange(1, 9)))
    return activities


def steps_of(library: Library, nodes: int) -> List[Searched]:
    """The results of searches with this many nodes, one after the other, up to the end; with more once the least cost is known."""
    found = [library.search(nodes)]
    while found[-1][0] < OPTIMUM and len(found) < 2000:
        state, cost, bound, _ = found[-1]
        nodes *= 2 if state == BEST_SO_FAR and cost == bound else 1
        found.append(library.search(nodes))
    return found


def searches_in_steps(suite: Suite, library: Library) -> None:
    """Calls of one size are one search: each is further than the one before, and the last one returns the optimum."""
    draw = random.Random(73)
    bounds: List[int] = []
    for number in range(5):
        title, files = f"drawn activities {number}", (60, rows_of(drawn_activities(draw)), b"", b"")
        library.open(*files)
        found = steps_of(library, 1)
        library.close()
        library.open(*files)
        best = read(library.ask(b"optimum"))
        library.close()
        ended = OPTIMUM, best["cost"], best["cost"], best["times"]
        suite.note(f"{title} after {len(found)} steps", {"end": ended}, {"end": found[-1]})
        suite.holds(f"{title}: each is further", all(is_further(*pair) for pair in zip(found, found[1:])))
        suite.holds(f"{title}: the optimum keeps each bound", max(bound for _, _, bound, _ in found) <= best["cost"])
        bounds += [bound for _, _, bound, _ in found[:-1]]
    suite.holds(f"a stop tells a bound above 0: {bounds}", any(bounds))


def going_on(suite: Suite, library: Library) -> None:
    """A stopped search reports that the next one resumes it, unless there are too many cycles, or it has ended."""
    rows = drawn_activities(random.Random(83))
    for name, activities, wanted in [("few cycles", rows, {1}), ("too many cycles", [*rows, *TOO_MANY], {0})]:
        library.open(60, rows_of(activities), b"", b"")
        came = [(library.search(1)[0], library.goes_on) for _ in range(20)]
        stops = {goes_on for state, goes_on in came if state < OPTIMUM}
        suite.holds(f"{name}: some stops say {wanted}, of {stops}", wanted <= stops and stops <= wanted | {0})
        library.close()
    library.open(60, rows_of(rows), b"", b"")
    suite.note("a search that has ended", {"state": OPTIMUM, "goes on": 0}, {"state": steps_of(library, 50)[-1][0], "goes on": library.goes_on})
    library.close()


def edited_between(suite: Suite, library: Library, apart: Library) -> None:
    """An edit ends a search: later results are of the network then. Times do not."""
    draw = random.Random(79)
    for number in range(10):
        rows = drawn_activities(draw)
        for each in (library, apart):
            each.open(60, rows_of(rows), b"", b"")
        for step, line in enumerate([b"", b"time 3 7", b"weight 4 0", b"span 9 0 59", b"drop activity 7", b"fix 2 5", b"unfix 2"]):
            library.ask(line)
            apart.ask(line)
            judged(suite, f"drawn activities {number}, step {step}, after {line!r}", library.search(1), apart)
        suite.note(f"drawn activities {number} at the end", {"state": OPTIMUM}, {"state": steps_of(library, 50)[-1][0]})
        library.close()
        apart.close()


def uses(suite: Suite, library: Library) -> None:
    """The result of a search is used by later lines and searches, and nothing of the working timetable is returned."""

    def line(text: bytes) -> str:
        return library.ask(text).decode()

    steps: List[Tuple[str, Callable[[], object], object]] = [
        ("open", lambda: library.open(10, TWO, b"", b"1; 7\n2; 7\n"), DONE),
        ("nothing is searched", lambda: library.search(0), (NOTHING_YET, 0, 0, [])),
        ("the optimum with room for one time", lambda: (library.search(1000, room=1), library.told.length), ((OPTIMUM, 4, 4, [0]), 2)),
        ("the same with no node", lambda: library.search(0), (OPTIMUM, 4, 4, [0, 4])),
        ("the optimum by a line", lambda: line(b"optimum"), "optimum 4 2\n1 0\n2 4\n"),
        ("the working timetable after that", library.times, [7, 7]),
        ("an edit that keeps it", lambda: line(b"weight 2 1"), "ok\n"),
        ("no node after it", lambda: library.search(0), (OPTIMUM, 4, 4, [0, 4])),
        ("an edit that does not", lambda: line(b"weight 1 3"), "ok\n"),
        ("the old timetable", lambda: library.search(0), (BEST_SO_FAR, 5, 0, [0, 4])),
        ("as many nodes as there can be", lambda: library.search(2**64 - 1), (OPTIMUM, 5, 5, [0, 4])),
        ("adopted", lambda: (line(b"adopt"), library.times()), ("ok\n", [0, 4])),
        ("no timetable any more", lambda: line(b"span 1 3 3"), "ok\n"),
        ("which a search finds", lambda: (library.search(1000), library.told.length), ((NO_TIMETABLE, 0, 0, []), 0)),
        ("and tells again", lambda: library.search(0), (NO_TIMETABLE, 0, 0, [])),
        ("an empty domain", lambda: line(b"span 1 3 5") + line(b"fix 1 0") + line(b"fix 2 9"), "ok\nok\nok\n"),
        ("needs no node", lambda: library.search(0), (NO_TIMETABLE, 0, 0, [])),
        ("close", library.close, None),
        ("no event", lambda: library.open(10, b"", b"", b""), DONE),
        ("costs nothing", lambda: library.search(0), (OPTIMUM, 0, 0, [])),
        ("close that", library.close, None),
    ]
    for title, call, wanted in steps:
        suite.note(f"searches: {title}", {"came": wanted}, {"came": call()})


# The system's memory, which refuses a request after this many; none while the number is negative.
REFUSING = r"""
#include <stddef.h>
long requests_left = -1;
void *__real_malloc(size_t);
void *__real_realloc(void *, size_t);
static int is_refused(void) { return requests_left == 0 || (requests_left > 0 && (requests_left -= 1, 0)); }
void *__wrap_malloc(size_t size) { return is_refused() ? NULL : __real_malloc(size); }
void *__wrap_realloc(void *block, size_t size) { return is_refused() ? NULL : __real_realloc(block, size); }
"""

# A ring of events, with a chord: its timetable is found at once, and not all of it is at slack 0.
RING = [(1, 1, 2, 3, 9, 2), (2, 2, 3, 4, 8, 1), (3, 3, 4, 1, 7, 5), (4, 4, 5, 6, 12, 1), (5, 5, 1, 2, 6, 3), (6, 2, 5, 3, 8, 4)]


def refused_once(suite: Suite, library: Library, served: int) -> bool:
    """Whether a search is refused memory after this many requests; then nothing changed, and with memory it answers as usual."""
    left = ctypes.c_long.in_dll(library.loaded, "requests_left")
    library.open(10, rows_of(RING), b"", b"1; 7\n")
    before = library.times(), library.ask(b"dump")
    left.value = served
    found = library.search(1000)
    left.value = -1
    is_refused: bool = library.told.status == MEMORY
    title = f"a search after {served} requests for memory"
    if is_refused:
        suite.note(title, {"refused": (7, 7, 7, (MEMORY, 0, 0))}, {"refused": found})
        suite.note(f"{title}: what was", {"left": before}, {"left": (library.times(), library.ask(b"dump"))})
        found = library.search(1000)
    best = read(library.ask(b"optimum"))
    wanted = (OPTIMUM, best["cost"], best["cost"], best["times"])
    suite.note(f"{title}: the optimum", {"found": wanted}, {"found": found})
    library.close()
    return is_refused


def refused_memory(suite: Suite, module: ModuleType, compiler: str, heap: Path, archive: Path) -> None:
    """Each memory request of a search is refused in turn."""
    source, path = suite.file("refusing.c", REFUSING.encode()), suite.folder / "librefusing.so"
    words = [compiler, "-shared", "-fPIC", "-Wl,--wrap=malloc", "-Wl,--wrap=realloc", "-o", path, source, heap]
    made = run([*words, "-Wl,--whole-archive", archive, "-Wl,--no-whole-archive"], seconds=100)
    suite.note("the library over memory that is refused", {"status": 0}, {"status": made["status"]})
    if made["status"] == 0:
        library, served = Library(module, path), 0
        while refused_once(suite, library, served):
            served += 1
        suite.holds(f"{served} requests were refused", served > 0)


def searches(suite: Suite, module: ModuleType, path: Path) -> None:
    libraries = [Library(module, path) for _ in range(3)]
    uses(suite, libraries[0])
    drawn_searches(suite, *libraries)
    searches_in_steps(suite, libraries[0])
    going_on(suite, libraries[0])
    edited_between(suite, *libraries[:2])
