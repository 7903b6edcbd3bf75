"""The answer of a call that is refused memory: nothing is done, and that is reported."""

import re
from typing import Optional

from hostile.growths import FILES
from hostile.in_process import orders
from hostile.in_process.orders import NUMBER_BEFORE, Answer, Call
from hostile.inputs import ends_of_replies

NOTHING = (0, 0, orders.MEMORY, 0, 0)
# Calls that report four numbers.
SEARCHES = [orders.SEARCH, *orders.PRICES]
# A line, whose reply to `try` may lack a known timetable: what is refused memory for it continues without it.
TRY = re.compile(rb"[ \t\r]*try[ \t]")
NONE_KNOWN = b"stopped none\n"


def fault_of_refused(call: Call) -> Optional[str]:
    """The fault of the calls that were refused memory, if any."""
    for number, answer in enumerate(call.refused, 1):
        fault = fault_of_run(call, answer) if call.order.kind == orders.RUN else fault_of_one(call, answer)
        if fault:
            return f"refused memory for the time {number}: {fault}, told {answer.told}, {answer.shown[:200]!r}"
    return None


def fault_of_one(call: Call, answer: Answer) -> Optional[str]:
    if answer.told == call.last.told and answer.shown == call.last.shown and call.order.kind != orders.SEARCH:
        # It succeeded without the memory.
        return None
    if call.order.kind == orders.ASK and TRY.match(call.order.texts[0]) and answer.told == (len(NONE_KNOWN), 0, 0, 0, 0):
        return None if NONE_KNOWN.startswith(answer.shown) else "another reply than that no timetable is known"
    if call.order.kind == orders.OPEN and answer.told[2] in (1, 2, 3):
        is_right = answer.told[3:] == (orders.NO_MEMORY_TO_READ, 0) and answer.told[0] == 0 and answer.told[1] > 0
        return None if is_right else "no fault of a file for want of memory"
    numbers = (NUMBER_BEFORE,) * 4 if call.order.kind in SEARCHES else (0, 0, 0, 0)
    is_right = answer.told == NOTHING and answer.shown == b"" and answer.numbers == numbers
    return None if is_right else "neither want of memory nor what it answers without a refusal"


def tells_of_none(call: Call, answer: Answer) -> bool:
    """Whether replies are as without a refusal up to one to `try`, which then has no timetable."""
    commands = call.order.texts[3]
    first = next((place for place, line in enumerate(commands.split(b"\n")) if TRY.match(line)), None)
    if first is None or call.order.room < call.last.told[0]:
        return first is not None
    before = ends_of_replies(commands, call.last.shown)[first]
    return answer.shown[:before] == call.last.shown[:before] and NONE_KNOWN in answer.shown[before:]


def fault_of_run(call: Call, answer: Answer) -> Optional[str]:
    """A run that is refused memory answers the lines before one, or returns a prefix of all replies."""
    if answer.told == call.last.told and answer.shown == call.last.shown:
        return None
    length, place, status, reason, field = answer.told
    if not call.last.shown.startswith(answer.shown) or length > call.last.told[0]:
        return None if tells_of_none(call, answer) else "no first part of the replies"
    if 1 <= status <= len(FILES):
        return None if (length, reason, field) == (0, orders.NO_MEMORY_TO_READ, 0) and place > 0 else "no fault of a file for want of memory"
    if status == orders.NOT_WRITTEN:
        return None
    if status != orders.MEMORY:
        return "neither want of memory nor what it answers without a refusal"
    if call.order.room < call.last.told[0]:
        # The replies to the lines before that one are not shown.
        return None
    ends = ends_of_replies(call.order.texts[3], call.last.shown)
    return None if place < len(ends) and length == ends[max(place - 1, 0)] else "not just the replies before its line"
