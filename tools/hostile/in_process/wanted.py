"""The expected answer of a call."""

from typing import Callable, List, NamedTuple, Optional, Sequence, Tuple

from hostile.in_process import orders
from hostile.in_process.orders import NUMBER_BEFORE, Answer, Call, Order, Told

# The judge of a call by the program's replies: returns a fault, or None.
Judge = Callable[[List[bytes]], Optional[str]]
# The expected answer: the report, the bytes of which a prefix is shown, and the numbers.
Wanted = Tuple[Told, bytes, Tuple[int, ...]]
UNTOLD = (0, 0, 0, 0)


class Check(NamedTuple):
    """Lines for the program, and the judge of a call by its replies to them."""

    lines: List[bytes]
    judge: Judge


def ended(status: int, length: int = 0, place: int = 0, reason: int = 0) -> Told:
    return (length, place, status, reason, 0)


def shown_is(answer: Answer, width: int, whole: bytes, room: int) -> bool:
    """Whether a prefix of all bytes is shown, as many as fit."""
    return answer.shown == whole[: room * width]


def as_bytes(numbers: Sequence[int], width: int) -> bytes:
    return b"".join(number.to_bytes(width, "little") for number in numbers)


def before_of(order: Order) -> Tuple[int, ...]:
    """The numbers of a call that does nothing."""
    counts = {orders.COST: 1, orders.MOVE: 1, orders.SEARCH: 4, orders.PRICE: 4, orders.TENSION: 4}
    count = counts.get(order.kind, 0)
    return (NUMBER_BEFORE,) * count + (0,) * (4 - count)


def is_wanted(call: Call, wanted: Wanted, width: int = 1) -> Optional[str]:
    """The differences of an answer from the expected one."""
    told, whole, numbers = wanted
    if call.last.told != told:
        return f"wanted {told}"
    if call.last.numbers != numbers:
        return f"wanted the numbers {numbers}"
    return None if shown_is(call.last, width, whole, call.order.room) else f"wanted {whole[:200]!r}"
