"""The results of prices: the refusals, and the optimum of the network in which the event has that time, or the activity that
tension."""

from typing import List, Optional, Tuple

from hostile.in_process import orders
from hostile.in_process.drawing import GREATEST_EVENT
from hostile.in_process.orders import Call, Order, Told
from hostile.in_process.searched import NO_TIMETABLE, OPTIMUM, Searched
from hostile.in_process.wanted import Check, before_of, ended, is_wanted

# An event at the time, and an activity of no length from there: the window of the priced event does not count in a price.
PRICED = b"add event %(more)d\nfix %(more)d %(time)d\nadd activity %(more)d %(more)d %(event)d 0 0 0\n"
# No random network has an event or an activity of this number.
MORE = 999_999_998


def searched_by_price(script: bytes, call: Call) -> Searched:
    cost, bound, state, _ = call.last.numbers
    number, value = call.order.first, call.order.second
    is_of_event = call.order.kind == orders.PRICE
    lines = PRICED % {b"more": MORE, b"time": value, b"event": number} if is_of_event else b"span %d %d %d\n" % (number, value, value)
    return Searched(script + lines, {}, cost, bound, state=state)


class Prices:
    """The prices of one session in turn."""

    def __init__(self, period: int) -> None:
        self.period = period
        # The question of the last one, and its lower bound, if the next one resumes it.
        self.last: Optional[Tuple[str, int, int]] = None
        self.bound = 0

    def forget(self) -> None:
        """After an edit a price restarts."""
        self.last = None

    def check_of(self, call: Call) -> Check:
        fault = self.fault_of_numbers(call) if call.last.status() == orders.DONE else None

        def judge(replies: List[bytes]) -> Optional[str]:
            refusal = self.refusal(call.order, replies)
            if refusal is None:
                return fault or (None if call.last.told == ended(orders.DONE) else f"wanted {ended(orders.DONE)}")
            return is_wanted(call, (refusal, b"", before_of(call.order)))

        if call.order.kind == orders.TENSION:
            return Check([b"dump"], judge)
        return Check([b"domain %d" % call.order.first] if call.order.first <= GREATEST_EVENT else [], judge)

    def refusal(self, order: Order, replies: List[bytes]) -> Optional[Told]:
        """The refusal of a price, if any, by the program's replies."""
        if order.kind == orders.TENSION:
            return None if b"\nadd activity %d " % order.first in replies[0] else ended(orders.REFUSED, reason=6)
        if not replies or replies[0].startswith(b"refused"):
            return ended(orders.REFUSED, place=order.first, reason=2)
        return ended(orders.REFUSED, reason=4) if order.second >= self.period else None

    def fault_of_numbers(self, call: Call) -> Optional[str]:
        """A finished price is not resumed, and a resumed one has no smaller lower bound."""
        _, bound, state, goes_on = call.last.numbers
        if goes_on > (state not in (OPTIMUM, NO_TIMETABLE)):
            return "a price tells what it never does"
        if call.order.third == 0 or state == NO_TIMETABLE:
            return None
        priced = (call.order.kind, call.order.first, call.order.second)
        # A price that was refused memory may have restarted.
        is_less = self.last == priced and not call.refused and bound < self.bound
        fault = f"a lower bound of {self.bound} before, and now {bound}" if is_less else None
        self.last, self.bound = priced if goes_on else None, bound
        return fault
