"""Sessions of the library in process: line by line they return the same as a run, detectable misuse is reported, and all
memory is freed. For the group `embedded`."""

import ctypes
import random
from pathlib import Path
from types import ModuleType
from typing import Any, Callable, Dict, List, Optional, Sequence, Tuple, Union

from tests.drawn_runs import Asked, Told, drawn_run, told_by
from tests.file_cases import TWO
from tests.harness import TOP, Suite, rows_of, run
from tests.rules import Row, Times

DRAWN = 200
DONE, MEMORY, LONG_LINE, CLOSED, OPEN, NOT_ONE_LINE, REFUSED = 0, 6, 7, 10, 11, 12, 13
# Instead of the time of an event without one.
NO_TIME = 65535
# The result of a call in a number or in many, or the refusal instead: the status, the number and the event.
Number = Union[int, Tuple[int, ...]]
Numbers = Union[List[int], Tuple[int, ...]]
# The result of a search: its state, the cost, a lower bound, and the times or the refusal.
Searched = Tuple[int, int, int, Numbers]
# State, cost and lower bound of a price, with the status of the call and the reason of a refusal.
Priced = Tuple[int, int, int, int, int]


class Session(ctypes.Structure):
    """A caller's variables."""

    _fields_ = [("at", ctypes.c_void_p), ("is_open", ctypes.c_bool)]


class Found(ctypes.Structure):
    """The quality of the timetable of a search."""

    _fields_ = [
        ("cost", ctypes.c_uint64), ("lower_bound", ctypes.c_uint64), ("state", ctypes.c_uint32), ("goes_on", ctypes.c_uint32),
    ]


class Library:
    """The library's calls on a session, one at a time."""

    def __init__(self, module: ModuleType, path: Path) -> None:
        self.told, self.session, self.module = module.Told(), Session(), module
        # Of the last search.
        self.goes_on = 7
        self.loaded = library = ctypes.CDLL(str(path))
        of_told, of_session = ctypes.POINTER(module.Told), ctypes.POINTER(Session)
        part = [ctypes.c_char_p, ctypes.c_size_t]
        priced = [ctypes.c_uint32, ctypes.c_uint16, ctypes.c_uint64, ctypes.POINTER(Found), of_told]
        parameters = {
            "pesp_open": [ctypes.c_uint16, *part, *part, *part, of_session, of_told],
            "pesp_close": [of_session],
            "pesp_ask": [of_session, *part, *part, of_told],
            "pesp_cost": [of_session, ctypes.POINTER(ctypes.c_uint64), of_told],
            "pesp_try_move": [of_session, ctypes.c_uint32, ctypes.c_uint16, ctypes.POINTER(ctypes.c_int64), of_told],
            "pesp_events": [of_session, ctypes.POINTER(ctypes.c_uint32), ctypes.c_size_t, of_told],
            "pesp_times": [of_session, ctypes.POINTER(ctypes.c_uint16), ctypes.c_size_t, of_told],
            "pesp_domain": [of_session, ctypes.c_uint32, ctypes.POINTER(ctypes.c_uint8), ctypes.c_size_t, of_told],
            "pesp_search": [of_session, ctypes.c_uint64, ctypes.POINTER(ctypes.c_uint16), ctypes.c_size_t, ctypes.POINTER(Found), of_told],
            "pesp_price": [of_session, *priced],
            "pesp_price_tension": [of_session, *priced],
        }
        self.calls = {name: getattr(library, name) for name in parameters}
        for name, call in self.calls.items():
            call.argtypes, call.restype = parameters[name], None

    def open(self, period: int, *files: bytes) -> object:
        given = [part for text in files for part in (text, len(text))]
        self.calls["pesp_open"](period, *given, self.session, self.told)
        return self.told.status

    def close(self) -> None:
        self.calls["pesp_close"](self.session)

    def ask(self, line: bytes, room: int = 1 << 20) -> bytes:
        """The bytes at the start of a buffer after a line; the rest of it is unchanged."""
        out = ctypes.create_string_buffer(b"." * room, room + 1)
        self.calls["pesp_ask"](self.session, line, len(line), out, room, self.told)
        shown = min(room, self.told.length)
        assert out.raw[shown:room] == b"." * (room - shown)
        return out.raw[:shown]

    def cost(self) -> Number:
        """The cost, or the earlier value, with the status and the number and the event of a refusal."""
        cost = ctypes.c_uint64(7)
        self.calls["pesp_cost"](self.session, cost, self.told)
        return cost.value if self.told.status == DONE else (cost.value, *self.refusal())

    def refusal(self) -> Tuple[int, int, int]:
        assert (self.told.length, self.told.field) == (0, 0)
        return self.told.status, self.told.reason, self.told.place

    def try_move(self, event: int, time: int) -> Number:
        """The change of the cost, or the earlier value and the refusal."""
        change = ctypes.c_int64(7)
        self.calls["pesp_try_move"](self.session, event, time, change, self.told)
        return change.value if self.told.status == DONE else (change.value, *self.refusal())

    def shown(self, name: str, kind: Any, given: Sequence[int], room: int, also: Sequence[ctypes.Structure] = ()) -> Numbers:
        """The numbers at the start of a buffer, or the refusal; the rest of it, and what is after it, is unchanged."""
        out, mark = (kind * (room + 1))(), 77
        out[:] = [mark] * (room + 1)
        self.calls[name](self.session, *given, out, room, *also, self.told)
        shown = min(room, self.told.length)
        assert out[shown:] == [mark] * (room + 1 - shown)
        told = (self.told.status, self.told.place, self.told.reason, self.told.field)
        numbers: List[int] = out[:shown]
        return numbers if told == (DONE, 0, 0, 0) else self.refusal()

    def events(self, room: int = 100) -> Numbers:
        return self.shown("pesp_events", ctypes.c_uint32, [], room)

    def times(self, room: int = 100) -> Numbers:
        return self.shown("pesp_times", ctypes.c_uint16, [], room)

    def domain(self, event: int, room: int = 180) -> Numbers:
        return self.shown("pesp_domain", ctypes.c_uint8, [event], room)

    def search(self, nodes: int, room: int = 100) -> Searched:
        """State, cost, lower bound and times, or the earlier values and the refusal."""
        found = Found(7, 7, 7, 7)
        times = self.shown("pesp_search", ctypes.c_uint16, [nodes], room, also=[found])
        self.goes_on = found.goes_on
        return (found.state, found.cost, found.lower_bound, times)

    def price(self, event: int, time: int, nodes: int) -> Priced:
        return self.price_by("pesp_price", event, time, nodes)

    def price_tension(self, activity: int, tension: int, nodes: int) -> Priced:
        return self.price_by("pesp_price_tension", activity, tension, nodes)

    def price_by(self, name: str, *asked: int) -> Priced:
        """State, cost and lower bound of a price, or the earlier values, with status and reason."""
        found = Found(7, 7, 7, 7)
        self.calls[name](self.session, *asked, found, self.told)
        self.goes_on = found.goes_on
        return (found.state, found.cost, found.lower_bound, self.told.status, self.told.reason)


def lines_of(commands: bytes) -> List[bytes]:
    """The lines of a stream, the last of which need not end."""
    lines = commands.split(b"\n")
    return lines if lines[-1] else lines[:-1]


def asked_in_turn(library: Library, asked: Asked) -> Told:
    """The replies of a session to each line in turn, and its final fault."""
    replies = b""
    if library.open(asked.period, asked.activities, asked.fixed, asked.times) == DONE:
        for number, line in enumerate(lines_of(asked.commands), start=1):
            replies += library.ask(line)
            if library.told.status != DONE:
                library.told.place = number
                break
        library.close()
    return {"replies": replies, "fault": library.module.fault_of(library.told) or ""}


def drawn_sessions(suite: Suite, library: Library) -> None:
    draw = random.Random(59)
    for number in range(DRAWN):
        asked = drawn_run(draw)
        suite.note(f"drawn session {number}, {asked}", told_by(suite, asked), asked_in_turn(library, asked))


def uses(suite: Suite, library: Library) -> None:
    """The reports on a closed session, on one that is open, and on invalid lines; each leaves the session unchanged."""

    def ask(line: bytes, room: int = 1 << 20) -> Tuple[bytes, int]:
        return library.ask(line, room), library.told.status

    steps: List[Tuple[str, Callable[[], object], object]] = [
        ("ask a closed session", lambda: ask(b"cost"), (b"", CLOSED)),
        ("the cost of a closed session", library.cost, (7, CLOSED, 0, 0)),
        ("a move in a closed session", lambda: library.try_move(1, 10), (7, CLOSED, 0, 0)),
        ("the events of a closed session", library.events, (CLOSED, 0, 0)),
        ("the times of a closed session", library.times, (CLOSED, 0, 0)),
        ("a domain of a closed session", lambda: library.domain(1), (CLOSED, 0, 0)),
        ("a search in a closed session", lambda: (library.search(9), library.goes_on), ((7, 7, 7, (CLOSED, 0, 0)), 7)),
        ("close a closed session", library.close, None),
        ("open with a fault", lambda: library.open(10, b"1; 1; 2; 5; 3; 2\n", b"", b""), 1),
        ("ask after that", lambda: ask(b"cost"), (b"", CLOSED)),
        ("no period", lambda: library.open(1, b"", b"", b""), 9),
        ("open", lambda: library.open(10, TWO, b"", b""), DONE),
        ("open again", lambda: library.open(10, b"", b"", b""), OPEN),
        ("the cost without times", library.cost, (7, REFUSED, 11, 1)),
        ("a move without times", lambda: library.try_move(2, 9), (7, REFUSED, 11, 1)),
        ("a move to the period", lambda: library.try_move(2, 10), (7, REFUSED, 4, 0)),
        ("a move of no event to the period", lambda: library.try_move(3, 10), (7, REFUSED, 2, 3)),
        ("a move of a number above all events", lambda: library.try_move(2**32 - 1, 0), (7, REFUSED, 2, 2**32 - 1)),
        ("the events", library.events, [1, 2]),
        ("the events with no room", lambda: (library.events(room=0), library.told.length), ([], 2)),
        ("the times before any", library.times, [NO_TIME, NO_TIME]),
        ("two lines at once", lambda: ask(b"time 1 0\ntime 2 4"), (b"", NOT_ONE_LINE)),
        ("a line of 4,097 bytes", lambda: ask(b"x" * 4097), (b"", LONG_LINE)),
        ("a time", lambda: ask(b"time 1 0"), (b"ok\n", DONE)),
        ("the cost without one time", library.cost, (7, REFUSED, 11, 2)),
        ("a move of the event without one", lambda: library.try_move(2, 4), (7, REFUSED, 11, 2)),
        ("one time", library.times, [0, NO_TIME]),
        ("one of two times in a room for one", lambda: (library.times(room=1), library.told.length), ([0], 2)),
        ("the other time", lambda: ask(b"time 2 4", room=1), (b"o", DONE)),
        ("the cost by a line", lambda: ask(b"cost"), (b"cost 4\n", DONE)),
        ("the cost", library.cost, 4),
        ("a cheaper move", lambda: library.try_move(2, 3), -1),
        ("a dearer move", lambda: library.try_move(1, 9), 1),
        ("a move to where it is", lambda: library.try_move(2, 4), 0),
        ("both times after that", library.times, [0, 4]),
        ("an open domain", lambda: library.domain(2), [0b11111111, 0b11]),
        ("a fixed time", lambda: ask(b"fix 1 0"), (b"ok\n", DONE)),
        ("a domain", lambda: library.domain(2), [0b110000, 0]),
        ("a domain in a room for one byte", lambda: (library.domain(2, room=1), library.told.length), ([0b110000], 2)),
        ("the domain of no event", lambda: library.domain(3), (REFUSED, 2, 3)),
        ("the domain of a number above all events", lambda: library.domain(2**32 - 1), (REFUSED, 2, 2**32 - 1)),
        ("a comment", lambda: ask(b"# nothing"), (b"", DONE)),
        ("close", library.close, None),
        ("the cost after that", library.cost, (7, CLOSED, 0, 0)),
    ]
    for title, call, wanted in steps:
        suite.note(f"sessions: {title}", {"came": wanted}, {"came": call()})


def drawn_network(draw: random.Random) -> Tuple[int, List[Row], Times]:
    """A period, activities with loops and parallel ones, and a time for each event."""
    period, count = draw.choice([2, 7, 10, 60, 1440]), draw.randint(1, 6)
    names = draw.sample([*range(1, 9), 999_999_999], count)
    activities: List[Row] = []
    for number in range(1, draw.randint(1, 14)):
        lower = draw.randint(-2 * period, 2 * period)
        weight = draw.choice([0, 1, draw.randint(0, 50), 10**9])
        activities.append((number, draw.choice(names), draw.choice(names), lower, lower + draw.randrange(period), weight))
    ends = {end for row in activities for end in row[1:3]}
    return period, activities, {end: draw.randrange(period) for end in sorted(ends)}


def drawn_moves(suite: Suite, library: Library) -> None:
    """The reported change of the cost by a move is the actual one; some moves are kept."""
    draw = random.Random(61)
    for number in range(DRAWN):
        period, activities, times = drawn_network(draw)
        library.open(period, rows_of(activities), b"", rows_of(times.items()))
        for _ in range(25 if times else 0):
            event, time = draw.choice([*times]), draw.randrange(period)
            before, told = library.cost(), library.try_move(event, time)
            suite.note(f"drawn network {number} after a tried move", {"left": (before, [*times.values()])}, {"left": (library.cost(), library.times())})
            library.ask(b"time %d %d" % (event, time))
            after = library.cost()
            assert isinstance(before, int) and isinstance(after, int)
            suite.note(f"drawn network {number}, {event} from {times[event]} to {time}", {"change": after - before}, {"change": told})
            if draw.randrange(3):
                library.ask(b"time %d %d" % (event, times[event]))
            else:
                times[event] = time
        library.close()


def domain_in(bits: Sequence[int]) -> List[str]:
    """The residues of bits, as in a reply."""
    return [str(residue) for residue in range(8 * len(bits)) if bits[residue // 8] >> residue % 8 & 1]


def least_without(library: Library) -> Tuple[Dict[str, Optional[int]], Dict[str, Optional[int]]]:
    """The least event without a time, by the times and by the cost; None if there is none."""
    by_times = [event for event, time in zip(library.events(), library.times()) if time == NO_TIME]
    cost = library.cost()
    return {"by the times": by_times[0] if by_times else None}, {"by the times": cost[-1] if isinstance(cost, tuple) else None}


def drawn_numbers(suite: Suite, library: Library) -> None:
    """After each line of random sessions events, times and domains are those of replies, also for numbers that are not events."""
    draw = random.Random(67)
    for number in range(DRAWN):
        asked = drawn_run(draw)
        if library.open(asked.period, asked.activities, asked.fixed, asked.times) != DONE:
            continue
        for line in [b"", *lines_of(asked.commands)]:
            library.ask(line)
            events = [int(row.split(b":")[0]) for row in library.ask(b"domains").splitlines()[1:]]
            suite.note(f"drawn session {number} after {line!r}", {"events": events}, {"events": library.events()})
            suite.note(f"drawn session {number} after {line!r}, without a time", *least_without(library))
            for event in {*events, draw.randint(1, 5)}:
                reply = library.ask(b"domain %d" % event).decode().split(":")
                told: object = (REFUSED, 2, event) if len(reply) == 1 else reply[1].split()
                bits = library.domain(event)
                came: object = bits if isinstance(bits, tuple) else domain_in(bits)
                length = 0 if isinstance(bits, tuple) else (asked.period + 7) // 8
                title = f"domain {event} of drawn session {number} after {line!r}"
                suite.note(title, {"residues": told, "length": length}, {"residues": came, "length": library.told.length})
        library.close()


# Two threads, each with sessions of its own, one after another: opened, queried, and closed.
MANY = r"""
#include "pespbench.h"
#include <pthread.h>
#include <stdlib.h>
#include <string.h>

static const char two[] = "1; 1; 2; 3; 5; 2\n2; 2; 1; 4; 6; 1\n", times[] = "1; 0\n2; 4\n";

static void one(void) {
    struct pesp_session session = {0};
    struct pesp_told told;
    struct pesp_found found;
    uint8_t reply[128];
    uint16_t best[2];
    uint64_t cost = 0;
    pesp_open(10, (const uint8_t *)two, strlen(two), NULL, 0, (const uint8_t *)times, strlen(times), &session, &told);
    if (told.status != PESP_DONE) abort();
    pesp_ask(&session, (const uint8_t *)"span 1 4 5", 10, reply, sizeof reply, &told);
    if (told.status != PESP_DONE || told.length != 3 || memcmp(reply, "ok\n", 3) != 0) abort();
    /* Null where there is nothing. */
    pesp_ask(&session, NULL, 0, NULL, 0, &told);
    if (told.status != PESP_DONE || told.length != 0) abort();
    pesp_ask(&session, (const uint8_t *)"cost", 4, NULL, 0, &told);
    if (told.status != PESP_DONE || told.length != 7) abort();
    pesp_events(&session, NULL, 0, &told);
    if (told.status != PESP_DONE || told.length != 2) abort();
    pesp_times(&session, NULL, 0, &told);
    if (told.status != PESP_DONE || told.length != 2) abort();
    pesp_domain(&session, 1, NULL, 0, &told);
    if (told.status != PESP_DONE || told.length != 2) abort();
    pesp_answer(10, NULL, 0, NULL, 0, NULL, 0, NULL, 0, NULL, 0, &told);
    if (told.status != PESP_DONE || told.length != 0) abort();
    pesp_cost(&session, &cost, &told);
    if (told.status != PESP_DONE || cost != 2) abort();
    pesp_search(&session, 1000, best, 2, &found, &told);
    pesp_search(&session, 0, NULL, 0, &found, &told);
    if (told.length != 2 || found.state != PESP_OPTIMUM || found.cost != 2 || found.lower_bound != 2 || found.goes_on != 0) abort();
    pesp_close(&session);
}

static void *many(void *unused) {
    for (int k = 0; k < 5000; k += 1) one();
    return unused;
}

int main(void) {
    pthread_t other;
    if (pthread_create(&other, NULL, many, NULL) != 0) abort();
    many(NULL);
    return pthread_join(other, NULL);
}
"""


def many_sessions(suite: Suite, compiler: str, heap: Path, archive: Path) -> None:
    """10,000 sessions in two threads, with each byte of memory watched by the compiler's sanitizers."""
    source, program = suite.file("many.c", MANY.encode()), suite.folder / "many"
    words = [compiler, "-std=c11", "-O1", "-g", "-pthread", "-fsanitize=address,undefined", f"-I{TOP / 'embedded'}"]
    made = run([*words, "-o", program, source, heap, archive], seconds=100)
    suite.note("10,000 sessions: the program is made", {"status": 0}, {"status": made["status"]})
    if made["status"] == 0:
        suite.note("10,000 sessions", {"status": 0, "standard error": b""}, run([program], seconds=100))


def sessions(suite: Suite, module: ModuleType, path: Path) -> None:
    library = Library(module, path)
    drawn_sessions(suite, library)
    uses(suite, library)
    drawn_moves(suite, library)
    drawn_numbers(suite, library)
