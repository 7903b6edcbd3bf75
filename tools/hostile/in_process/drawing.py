"""Random streams of calls on a session: lines of all commands, numbers and searches between them, and hostile uses."""

import itertools
import random
from typing import Any, Callable, Iterator, List, NamedTuple, Sequence

from hostile.in_process import orders
from hostile.in_process.orders import ALONE, NONE, WITH_ALL_LATER_ONES, Order
from tests.drawn_runs import drawn_run
from tests.harness import rows_of
from tests.streams import drawn_lines, searches

SLOTS = 4
LINES = 12
# Short periods, at which searches end soon, and long ones, at which there are none.
SHORT, LONG = range(2, 13), [60, 255, 256, 257, 1440]
# Enough for a complete reply of a few events.
WHOLE = 65_536
# The bytes of a file on which a search takes some time.
LARGE = 200
# A line or a file may have any bytes.
HOSTILE = [b"\0", b"cost\0", b"\0cost", b"\xff\xfe", b"domain \xc3\xa41", b"\xe2\x80\xaecost", b"cost\ncost", b"\n", b"cost\n", b"", b" " * 4_096]
HOSTILE += [b"x" * 4_096, b"x" * 4_097, b"cost".rjust(4_096), b"cost".rjust(4_097), b"fix 1 " + b"9" * 4_000, b"#\n", b"\r", b"fix 1 -1", b"try 18446744073709551616"]
GREATEST_EVENT, GREATEST_NUMBER = 999_999_999, 2**32 - 1
NODES = [0, 0, 0, 1, 1, 2, 3, 5, 10, 50, 200, 2**64 - 1]


class Stream(NamedTuple):
    """Calls on one session, and the files from which it is opened."""

    period: int
    files: Sequence[bytes]
    orders: List[Order]

    def has_files(self) -> bool:
        return any(self.files)


class Kind(NamedTuple):
    """Whether a stream has prices, and whether it has every call, and is refused memory."""

    has_prices: bool
    is_whole: bool


class Drawing:
    """Generates the calls of one stream."""

    def __init__(self, draw: random.Random, period: int, slot: int, files: Sequence[bytes], kind: Kind) -> None:
        self.draw, self.period, self.slot, self.files, self.kind = draw, period, slot, files, kind
        # A search of some thousand requests takes too long to be repeated for each.
        self.is_refusing = (kind.is_whole or draw.randrange(4) == 0) and len(files[0]) < LARGE
        self.has_searches = period in SHORT

    def refusal(self) -> int:
        return self.draw.choice([NONE, ALONE, WITH_ALL_LATER_ONES]) if self.is_refusing else NONE

    def room(self) -> int:
        return self.draw.choice([0, 1, self.draw.randint(2, 40), 128, WHOLE, WHOLE])

    def event(self) -> int:
        return self.draw.randint(1, 4) if self.draw.randrange(8) else self.draw.choice([0, 9, GREATEST_EVENT, GREATEST_EVENT + 1, GREATEST_NUMBER])

    def time(self) -> int:
        return self.draw.randrange(self.period) if self.draw.randrange(8) else self.draw.choice([self.period, 65_535])

    def activity(self) -> int:
        return self.draw.randint(1, 6) if self.draw.randrange(8) else self.draw.choice([0, 9, GREATEST_EVENT, GREATEST_NUMBER])

    def tension(self) -> int:
        return self.draw.randrange(2 * self.period) if self.draw.randrange(8) else 65_535

    def order(self, kind: str, **how: Any) -> Order:
        return Order(kind, self.slot, **how)

    def ask(self, line: bytes) -> Order:
        return Order(orders.ASK, self.slot, room=self.room(), refusal=self.refusal(), texts=(line,))

    def line(self, line: bytes) -> List[Order]:
        """A line; a `try` has room for its complete reply, and is followed by the network."""
        asked = self.ask(line)
        return [asked._replace(room=WHOLE), self.dump()] if line.split()[:1] == [b"try"] else [asked]

    def dump(self) -> Order:
        return Order(orders.ASK, self.slot, room=WHOLE, texts=(b"dump",))

    def timetable(self) -> List[Order]:
        """The events and the times, complete."""
        return [self.order(orders.EVENTS, room=100), self.order(orders.TIMES, room=100)]

    def moves(self) -> List[Order]:
        return [*self.timetable(), self.order(orders.MOVE, first=self.event(), second=self.time())]

    def search(self) -> List[Order]:
        """A search, followed by its network."""
        if not self.has_searches:
            return []
        search = self.order(orders.SEARCH, first=self.draw.choice(NODES), room=self.draw.choice([0, 1, 3, 100, 100]), refusal=self.refusal())
        # The result is returned again, complete.
        again = [self.order(orders.SEARCH, first=0, room=100)] if self.draw.randrange(3) == 0 else []
        return [search, *again, self.dump()]

    def price(self, kind: str) -> List[Order]:
        """The price of an event at a time or of an activity's tension, perhaps repeated, followed by its network."""
        if not (self.kind.has_prices and self.has_searches):
            return []
        number, value = (self.event(), self.time()) if kind == orders.PRICE else (self.activity(), self.tension())
        nodes = [self.draw.choice(NODES) for _ in range(self.draw.choice([1, 1, 2, 3]))]
        prices = [self.order(kind, first=number, second=value, third=each, refusal=self.refusal()) for each in nodes]
        return [*prices, self.dump()]

    def more(self) -> List[Order]:
        """The queries other than lines."""
        turns: List[Callable[[], List[Order]]] = [
            lambda: [self.order(orders.COST)],
            lambda: [self.order(orders.EVENTS, room=self.draw.randint(0, 5))],
            lambda: [self.order(orders.TIMES, room=self.draw.randint(0, 5))],
            lambda: [self.order(orders.DOMAIN, first=self.event(), room=self.draw.choice([0, 1, 2, 180]))],
            self.moves,
            self.search,
            self.search,
            lambda: self.price(self.draw.choice(orders.PRICES)),
            lambda: [self.order(orders.MOVE_SESSION)],
            lambda: [self.opening(self.period)],
            lambda: self.line(self.draw.choice(HOSTILE)),
        ]
        return self.draw.choice(turns)() if self.draw.randrange(2) else []

    def each_call(self) -> List[Order]:
        """Every call on a session that is not a line."""
        domain = self.order(orders.DOMAIN, first=self.event(), room=180)
        prices = [order for kind in orders.PRICES for order in self.price(kind)]
        return [self.order(orders.COST), *self.moves(), domain, *self.search(), *prices, self.dump()]

    def opening(self, period: int) -> Order:
        return Order(orders.OPEN, self.slot, first=period, refusal=self.refusal(), texts=tuple(self.files))

    def unopened(self) -> List[Order]:
        """Uses of a closed session, and openings at an invalid period."""
        kinds = [orders.COST, orders.MOVE, orders.EVENTS, orders.TIMES, orders.DOMAIN, orders.SEARCH, *orders.PRICES * self.kind.has_prices]
        drawn = [self.order(self.draw.choice(kinds), first=1, room=3) for _ in range(self.draw.randrange(3))]
        drawn += [self.order(kind) for kind in (orders.CLOSE, orders.MOVE_SESSION) if self.draw.randrange(3) == 0]
        bad = self.opening(self.draw.choice([0, 1, 1_441, 65_535]))
        return [*drawn, *[bad, self.ask(b"cost")][: self.draw.randrange(3)]]

    def calls(self, lines: Sequence[bytes]) -> Iterator[Order]:
        yield from self.unopened()
        yield self.opening(self.period)
        yield from self.timetable()
        for line in lines:
            yield from self.line(line)
            yield from self.more()
        yield from self.each_call() if self.kind.is_whole else [self.dump()]
        if self.kind.is_whole or self.draw.randrange(40) == 0 or any(self.files):
            commands = b"\n".join(lines) + self.draw.choice([b"", b"\n", b"\n" + b"x" * 4_097])
            yield Order(orders.RUN, self.slot, first=self.period, room=self.room(), refusal=self.refusal(), texts=(*self.files, commands))
        yield self.order(orders.CLOSE)
        yield from self.unopened()


def each_with_each(draw: random.Random, period: int) -> bytes:
    """Activities between each two of six events, on which a search stops and resumes."""
    rows = []
    for number, (first, second) in enumerate(itertools.combinations(range(1, 7), 2), 1):
        lower = draw.randrange(period)
        rows.append((number, first, second, lower, lower + draw.randint(2 * period // 3, period - 1), draw.randint(1, 4)))
    return rows_of(rows)


def drawn_stream(draw: random.Random, period: int, slot: int, kind: Kind) -> Stream:
    """A stream at a period. One in 25 is opened from files at a period of its own, and one in ten from a network that is harder to
    search; one in four is refused memory. One that has every call is opened without files."""
    files: Sequence[bytes] = [b"", b"", b""]
    lines = drawn_lines(draw, period, LINES)
    if draw.randrange(25) == 0 and not kind.is_whole:
        asked = drawn_run(draw)
        period, files, lines = asked.period, asked[1:4], asked.commands.split(b"\n")[:LINES]
    elif draw.randrange(10) == 0 and not kind.is_whole:
        files = [each_with_each(draw, period), b"", b""]
    lines = [line for line in lines if period in SHORT or not searches(line)]
    return Stream(period, files, list(Drawing(draw, period, slot, files, kind).calls(lines)))


def merged(draw: random.Random, streams: Sequence[Stream]) -> List[Order]:
    """The orders of several streams, each in a slot of its own, with those of a stream in their order."""
    left = [list(stream.orders) for stream in streams]
    turns = [place for place, each in enumerate(left) for _ in each]
    draw.shuffle(turns)
    return [left[place].pop(0) for place in turns]
