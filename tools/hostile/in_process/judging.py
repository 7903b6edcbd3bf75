"""Compares the answers of calls on a session with the program's replies to equivalent lines."""

from types import ModuleType
from typing import Dict, List, Optional, Tuple

from hostile.in_process import orders
from hostile.in_process.drawing import GREATEST_EVENT, Stream
from hostile.in_process.orders import Call
from hostile.in_process.priced import Prices, searched_by_price
from hostile.in_process.refused import fault_of_refused
from hostile.in_process.searched import BEST_SO_FAR, NO_TIMETABLE, NOTHING_YET, OPTIMUM, Searched, numbers_in, searched_by_try, times_in
from hostile.in_process.wanted import UNTOLD, Check, Judge, as_bytes, before_of, ended, is_wanted
from tests.parsing import EDITS, LONGEST_LINE, Fault, parse
from tests.sessions import NO_TIME, domain_in


def command_in(line: bytes) -> Tuple[str, List[int]]:
    try:
        return parse(line) or ("", [])
    except Fault:
        return "", []


class Judged:
    """The calls of one stream in turn: the program's lines for each, and its faults."""

    def __init__(self, stream: Stream, module: ModuleType) -> None:
        self.stream, self.module, self.is_open = stream, module, False
        self.checks: List[Check] = []
        self.searched: List[Searched] = []
        # By the replies so far, and by the last results of calls.
        self.events: List[int] = []
        self.times: Dict[int, int] = {}
        self.told_events: List[int] = []
        self.told_times: List[int] = []
        # Whether the initial times of a session, which are in the files, are known.
        self.has_times = not stream.has_files()
        # Searches, prices and tries whose network follows, and the cost and the bound of the search in progress.
        self.untold: List[Call] = []
        self.before: Optional[Tuple[Optional[int], int]] = None
        self.prices = Prices(stream.period)
        # For the program's own opening of the files.
        self.opening_fault = ""
        self.script = b""

    def add(self, call: Call) -> None:
        """Registers the judge of a call."""
        lines, judge = self.check_of(call)
        title = f"{call.order.kind} {call.order.first} {call.order.second} {call.order.texts[:1]!r:.200}"

        def judged(replies: List[bytes]) -> Optional[str]:
            faults = [answer.fault for answer in [*call.refused, call.last] if answer.fault]
            fault = faults[0] if faults else judge(replies) or fault_of_refused(call)
            return f"{title}: {fault}; told {call.last.told}, numbers {call.last.numbers}, {call.last.shown[:200]!r}" if fault else None

        self.checks.append(Check(lines, judged))

    def check_of(self, call: Call) -> Tuple[List[bytes], Judge]:
        order = call.order
        if order.kind == orders.OPEN:
            return self.opening(call)
        if order.kind == orders.RUN:
            return [], lambda _: None
        if order.kind == orders.CLOSE:
            self.is_open = False
            return [], lambda _: is_wanted(call, ((orders.TOLD_BEFORE,) * 5, b"", UNTOLD))
        if not self.is_open:
            return [], lambda _: is_wanted(call, (ended(orders.CLOSED), b"", before_of(order)))
        kinds = {
            orders.ASK: self.asking, orders.COST: self.cost, orders.MOVE: self.move, orders.EVENTS: self.event_list,
            orders.TIMES: self.time_list, orders.DOMAIN: self.domain, orders.SEARCH: self.search, **dict.fromkeys(orders.PRICES, self.price),
        }
        return kinds[order.kind](call)

    def opening(self, call: Call) -> Tuple[List[bytes], Judge]:
        period = call.order.first
        if not 2 <= period <= 1_440:
            return [], lambda _: is_wanted(call, (ended(orders.NO_PERIOD), b"", UNTOLD))
        if self.is_open:
            return [], lambda _: is_wanted(call, (ended(orders.ALREADY_OPEN), b"", UNTOLD))
        self.is_open = call.last.status() == orders.DONE
        fault = self.module.fault_of(self.module.Told(*call.last.told)) or ""
        return [], lambda _: None if fault == self.opening_fault and call.last.told[0] == 0 else f"the program says {self.opening_fault!r}"

    def asking(self, call: Call) -> Tuple[List[bytes], Judge]:
        line = call.order.texts[0]
        if len(line) > LONGEST_LINE:
            return [], lambda _: is_wanted(call, (ended(orders.LONG_LINE), b"", UNTOLD))
        if b"\n" in line:
            return [], lambda _: is_wanted(call, (ended(orders.NOT_ONE_LINE), b"", UNTOLD))
        name, numbers = command_in(line)
        if name == "dump" and call.order.room >= call.last.told[0]:
            self.script = call.last.shown
            self.note_searched()
        if name in EDITS and call.last.told[0] == len(b"ok\n"):
            self.before = None
            self.prices.forget()
        if name == "try":
            self.untold.append(call)
            return [line], lambda replies: fault_of_try(call, replies[0])
        lines = [b"optimum", line] if name == "adopt" else [line]

        def judge(replies: List[bytes]) -> Optional[str]:
            if replies[-1] == b"ok\n":
                self.follow(name, numbers, replies[0])
            return is_wanted(call, (ended(orders.DONE, len(replies[-1])), replies[-1], UNTOLD))

        return lines, judge

    def follow(self, name: str, numbers: List[int], first: bytes) -> None:
        """The effect of an accepted line on events and times."""
        if name == "time":
            self.times[numbers[0]] = numbers[1]
        elif name in ("untime", "drop event"):
            self.times.pop(numbers[0], None)
        elif name == "adopt":
            self.times = times_in(first)

    def cost(self, call: Call) -> Tuple[List[bytes], Judge]:
        def judge(replies: List[bytes]) -> Optional[str]:
            words = replies[0].split()
            if words[0] == b"cost":
                return is_wanted(call, (ended(orders.DONE), b"", (int(words[1]), 0, 0, 0)))
            return is_wanted(call, (ended(orders.REFUSED, place=int(words[3]), reason=11), b"", before_of(call.order)))

        return [b"cost"], judge

    def move(self, call: Call) -> Tuple[List[bytes], Judge]:
        event, time = call.order.first, call.order.second
        events, times = self.told_events, self.told_times
        untimed = [each for each, when in zip(events, times) if when == NO_TIME]
        if event not in events:
            refusal: Tuple[int, ...] = (2, event)
        elif time >= self.stream.period:
            refusal = (4, 0)
        elif untimed:
            refusal = (11, untimed[0])
        else:
            now = times[events.index(event)]
            lines = [b"cost", b"time %d %d" % (event, time), b"cost", b"time %d %d" % (event, now)]

            def judge(replies: List[bytes]) -> Optional[str]:
                first, last = (int(replies[place].split()[-1]) for place in (0, 2))
                return is_wanted(call, (ended(orders.DONE), b"", ((last - first) % 2**64, 0, 0, 0)))

            return lines, judge
        wanted = (ended(orders.REFUSED, place=refusal[1], reason=refusal[0]), b"", before_of(call.order))
        return [], lambda _: is_wanted(call, wanted)

    def event_list(self, call: Call) -> Tuple[List[bytes], Judge]:
        if call.order.room >= call.last.told[0]:
            self.told_events = numbers_in(call.last.shown, 4)

        def judge(replies: List[bytes]) -> Optional[str]:
            self.events = [int(row.split(b":")[0]) for row in replies[0].splitlines()[1:]]
            return is_wanted(call, (ended(orders.DONE, len(self.events)), as_bytes(self.events, 4), UNTOLD), width=4)

        return [b"domains"], judge

    def time_list(self, call: Call) -> Tuple[List[bytes], Judge]:
        if call.order.room >= call.last.told[0]:
            self.told_times = numbers_in(call.last.shown, 2)
        is_first, self.has_times = not self.has_times, True
        told = dict(zip(self.told_events, self.told_times))

        def judge(replies: List[bytes]) -> Optional[str]:
            self.events = [int(row.split(b":")[0]) for row in replies[0].splitlines()[1:]]
            if is_first:
                # Those of the file, which the later costs show.
                self.times = {event: time for event, time in told.items() if time != NO_TIME}
            times = [self.times.get(event, NO_TIME) for event in self.events]
            return is_wanted(call, (ended(orders.DONE, len(times)), as_bytes(times, 2), UNTOLD), width=2)

        return [b"domains"], judge

    def domain(self, call: Call) -> Tuple[List[bytes], Judge]:
        event = call.order.first
        none = (ended(orders.REFUSED, place=event, reason=2), b"", UNTOLD)
        if event > GREATEST_EVENT:
            return [], lambda _: is_wanted(call, none)
        count = (self.stream.period + 7) // 8

        def judge(replies: List[bytes]) -> Optional[str]:
            if replies[0].startswith(b"refused"):
                return is_wanted(call, none)
            residues = replies[0].decode().split(":")[1].split()
            bits = [sum(1 << int(each) % 8 for each in residues if int(each) // 8 == place) for place in range(count)]
            assert domain_in(bits) == residues
            return is_wanted(call, (ended(orders.DONE, count), bytes(bits), UNTOLD))

        return [b"domain %d" % event], judge

    def search(self, call: Call) -> Tuple[List[bytes], Judge]:
        cost, bound, state, goes_on = call.last.numbers
        fault = self.fault_of_chain(call)
        if state in (OPTIMUM, NO_TIMETABLE):
            return [b"optimum"], lambda replies: fault or self.fault_of_end(call, replies[0])
        if state not in (NOTHING_YET, BEST_SO_FAR) or goes_on > 1 or call.last.told[1:] != (0, orders.DONE, 0, 0):
            return [], lambda _: "a search tells what it never does"
        self.untold.append(call)
        return [], lambda _: fault

    def fault_of_end(self, call: Call, reply: bytes) -> Optional[str]:
        """A search that ended returns the optimum, or that there is none, and cannot be resumed."""
        if reply == b"infeasible\n":
            return is_wanted(call, (ended(orders.DONE), b"", (0, 0, NO_TIMETABLE, 0)))
        cost, times = int(reply.split()[1]), times_in(reply)
        shown = as_bytes([times[event] for event in sorted(times)], 2)
        return is_wanted(call, (ended(orders.DONE, len(times)), shown, (cost, cost, OPTIMUM, 0)), width=2)

    def fault_of_chain(self, call: Call) -> Optional[str]:
        """No later call of a search returns a dearer timetable, or a smaller lower bound."""
        cost, bound, state, _ = call.last.numbers
        has_times = state in (BEST_SO_FAR, OPTIMUM)
        if call.order.first == 0 or state == NO_TIMETABLE:
            return None
        before, self.before = self.before, (cost if has_times else None, bound)
        if before is None:
            return None
        if bound < before[1]:
            return f"a lower bound of {before[1]} before, and now {bound}"
        is_dearer = before[0] is not None and (not has_times or cost > before[0])
        return f"a timetable of cost {before[0]} before, and now {cost}" if is_dearer else None

    def price(self, call: Call) -> Tuple[List[bytes], Judge]:
        if call.last.status() == orders.DONE:
            self.untold.append(call)
        check = self.prices.check_of(call)
        return check.lines, check.judge

    def note_searched(self) -> None:
        """Results of searches that may differ from the program's, with their networks; a timetable if it is complete."""
        events = [int(line.split()[2]) for line in self.script.splitlines() if line.startswith(b"add event")]
        for call in self.untold:
            if call.order.kind == orders.ASK:
                self.searched.append(searched_by_try(self.script, call.last.shown))
                continue
            if call.order.kind in orders.PRICES:
                self.searched.append(searched_by_price(self.script, call))
                continue
            cost, bound, state, _ = call.last.numbers
            times = numbers_in(call.last.shown, 2)
            is_whole = state == BEST_SO_FAR and len(times) == len(events)
            self.searched.append(Searched(self.script, dict(zip(events, times)) if is_whole else {}, cost, bound))
        self.untold = []


def fault_of_try(call: Call, reply: bytes) -> Optional[str]:
    """`try` has more than one legal reply. It is judged by the network that follows it."""
    if is_wanted(call, (ended(orders.DONE, len(reply)), reply, UNTOLD)) is None:
        return None
    is_reply = call.last.shown.startswith((b"stopped", b"optimum", b"infeasible")) and call.last.told == ended(orders.DONE, len(call.last.shown))
    return None if is_reply else f"wanted {reply!r} or another one of a search"
