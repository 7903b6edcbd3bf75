"""The orders that caller.c executes, and its report of each call."""

import re
from typing import Iterator, List, NamedTuple, Tuple

# The letters of calls.c, and of caller.c's own orders.
OPEN, CLOSE, ASK, COST, MOVE, EVENTS, TIMES, DOMAIN, SEARCH, PRICE, TENSION, RUN = "o", "c", "a", "k", "v", "e", "t", "d", "s", "p", "q", "w"
PRICES = [PRICE, TENSION]
MOVE_SESSION, EXCHANGE = "m", "x"
WITHOUT_ANSWER = [MOVE_SESSION, EXCHANGE]
# How memory requests are refused: not at all, alone, and with all later ones.
NONE, ALONE, WITH_ALL_LATER_ONES = 0, 1, 2

# The numbers of the header.
DONE, NOT_WRITTEN, MEMORY, LONG_LINE, NO_PERIOD, CLOSED, ALREADY_OPEN, NOT_ONE_LINE, REFUSED = 0, 5, 6, 7, 9, 10, 11, 12, 13
NO_MEMORY_TO_READ = 11
# The caller's initial value of a number, and of the report, before a call.
NUMBER_BEFORE, TOLD_BEFORE = 7, 9


class Order(NamedTuple):
    """A call, as an order of caller.c."""

    kind: str
    slot: int = 0
    first: int = 0
    second: int = 0
    third: int = 0
    room: int = 0
    refusal: int = NONE
    texts: Tuple[bytes, ...] = ()

    def packed(self) -> bytes:
        lengths = [len(text) for text in self.texts] + [0] * (4 - len(self.texts))
        words = [self.kind, self.slot, self.first, self.second, self.third, self.room, self.refusal, *lengths]
        return " ".join(map(str, words)).encode() + b"\n" + b"".join(self.texts)


# The report of a call: length, place, status, reason, field.
Told = Tuple[int, ...]


class Answer(NamedTuple):
    """The result of a call."""

    kind: str
    told: Told
    numbers: Tuple[int, ...]
    shown: bytes
    fault: str

    def status(self) -> int:
        return self.told[2]

    def is_final(self) -> bool:
        """Whether the call was not repeated."""
        return self.kind.islower()


HEAD = re.compile(rb"(\w) (\d+) (\d+) (\d+) (\d+) (\d+) (\d+) (\d+) (\d+) (\d+) (\d+) ([^\n]*)\n")


def answers_of(output: bytes) -> Iterator[Answer]:
    """The answers that a caller wrote; an incomplete last one is omitted."""
    place = 0
    while head := HEAD.match(output, place):
        numbers = [int(word) for word in head.groups()[1:11]]
        place = head.end() + numbers[9]
        if place > len(output):
            return
        fault = head[12].decode()
        yield Answer(head[1].decode(), tuple(numbers[:5]), tuple(numbers[5:9]), output[head.end() : place], "" if fault == "-" else fault)


class Call(NamedTuple):
    """An order with its results: those with memory refused, and the last one."""

    order: Order
    refused: List[Answer]
    last: Answer


def calls_of(orders: List[Order], output: bytes) -> List[Call]:
    """The orders that have an answer, with their answers; fewer if the caller stopped early."""
    answers, calls = answers_of(output), []
    for order in orders:
        if order.kind in WITHOUT_ANSWER:
            continue
        refused: List[Answer] = []
        for answer in answers:
            if answer.is_final():
                calls.append(Call(order, refused, answer))
                break
            refused.append(answer)
    return calls
