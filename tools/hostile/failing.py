"""Devices that read and write small pieces, are interrupted, fail, or end, at each call in turn."""

import dataclasses
import errno
from typing import Callable, List, Optional

from hostile.inputs import Input, ends_of_replies
from hostile.served import ALWAYS, Came, Order, Served
from hostile.suite import Suite, Wrong
from tests.harness import NAMES, NOT_READ, NOT_WRITTEN, unreadable

READ, READ_FILE, WRITE, WRITE_FAULT, OPEN, LENGTH, CLOSE = (
    "read of commands",
    "read of a file",
    "write of replies",
    "write of a fault",
    "open",
    "length",
    "close",
)
MOVING = [READ, READ_FILE, WRITE, WRITE_FAULT]
PIECES = [1, 2, 3, 7]
# The number of calls that are tried, spread over all of them, unless all are requested.
MOST_CALLS = 1_000
TRIED_CALLS = {False: 10, True: 40}
EARLY = b"pespbench: out of memory at line 0\n"


# The fault of a run that failed at a place, if any.
Judge = Callable[[int, Came], Optional[str]]


class Trial:
    """One input, its result without failures, and where the replies to its lines end."""

    def __init__(self, suite: Suite, given: Input, served: Served) -> None:
        self.suite, self.given, self.served = suite, given, served
        self.plain = served.run()
        self.ends = ends_of_replies(given.given, self.plain.output)

    def step(self, order: Order) -> int:
        calls = self.served.run(dataclasses.replace(order, begin=0, end=0)).calls[order.call]
        return 1 if calls <= MOST_CALLS else calls // TRIED_CALLS[self.suite.is_whole]

    def each(self, name: str, order_at: Callable[[int], Order], judge: Judge) -> None:
        """Runs the order for the first, second and each later call, until there are no more calls."""
        wrong: List[Wrong] = []
        tried, place, step = 0, 1, self.step(order_at(1))
        while (came := self.served.run(order_at(place))).answered:
            fault = judge(place, came)
            wrong += [(place, fault, came)] if fault else []
            tried, place = tried + 1, place + step
        if tried:
            self.suite.found(f"{self.given.name}: {name}", tried, wrong)

    def is_same(self, _: int, came: Came) -> Optional[str]:
        return None if came.told() == self.plain.told() else "something else than in a run without faults"


def fails(call: str, answer: int, times: int = 1, most: int = 0) -> Callable[[int], Order]:
    """For each number, the order in which that call and this many later ones fail; 0 for `answer` is an end."""
    return lambda place: Order(call=call, begin=place, end=ALWAYS if times == ALWAYS else place + times - 1, answer=answer, most=most)


def wants(status: int, error: bytes, output: bytes, came: Came) -> Optional[str]:
    if (came.status, came.error) != (status, error):
        return "another status or text"
    return None if came.output == output else "other replies"


def one_run(trial: Trial, name: str, order: Order) -> None:
    """A single run, whose result must be as without failures."""
    came = trial.served.run(order)
    fault = trial.is_same(0, came)
    if came.answered or order.most:
        trial.suite.found(f"{trial.given.name}: {name}", 1, [(0, fault, came)] if fault else [])


def small_pieces(trial: Trial) -> None:
    for call in [call for call in MOVING if trial.plain.calls[call]]:
        for size in PIECES:
            one_run(trial, f"{call} in pieces of {size}", Order(call=call, most=size))


def interrupted(trial: Trial) -> None:
    """Reading a file and writing a fault are repeated if a signal interrupted the call."""
    for call in [call for call in [READ_FILE, WRITE_FAULT] if trial.plain.calls[call]]:
        trial.each(f"{call} interrupted", fails(call, errno.EINTR), trial.is_same)
        trial.each(f"{call} interrupted three times", fails(call, errno.EINTR, 3), trial.is_same)
        order = Order(call=call, every=2, answer=errno.EINTR, most=7)
        one_run(trial, f"each second {call} interrupted, in small pieces", order)


def failing_reads(trial: Trial) -> None:
    """Commands of which `n - 1` bytes arrive before a failure: the complete lines are answered."""
    given, plain = trial.given.given, trial.plain

    def judge(place: int, came: Came) -> Optional[str]:
        lines = given[: place - 1].count(b"\n")
        if lines < len(trial.ends) - 1 or plain.status == 0:
            return wants(1, NOT_READ, plain.output[: trial.ends[min(lines, len(trial.ends) - 1)]], came)
        return trial.is_same(place, came)

    # An interrupted read of commands counts as failed.
    trial.each(f"{READ} fails once", fails(READ, errno.EIO, most=1), judge)
    trial.each(f"{READ} is interrupted from then on", fails(READ, errno.EINTR, ALWAYS, most=1), judge)


def failing_writes(trial: Trial) -> None:
    """Replies of which `n - 1` bytes are written before a failure or the end of writing: nothing is written again."""

    def judge(place: int, came: Came) -> Optional[str]:
        if came.calls[WRITE] != place:
            return "a write after the failure"
        return wants(1, NOT_WRITTEN, trial.plain.output[: place - 1], came)

    trial.each(f"{WRITE} fails", fails(WRITE, errno.ENOSPC, most=1), judge)
    trial.each(f"{WRITE} takes no byte", fails(WRITE, 0, most=1), judge)
    # An interrupted write counts as failed; only help is written by std, which repeats such a write.
    again = trial.is_same if "--help" in trial.given.words else judge
    trial.each(f"{WRITE} is interrupted", fails(WRITE, errno.EINTR, most=1), again)


def failing_files(trial: Trial) -> None:
    """Opening, querying the length and reading, each of which names its file; out of memory is a fault of its own."""
    faults = {unreadable(name) for name in NAMES}

    def judge(_: int, came: Came) -> Optional[str]:
        return wants(1, came.error, b"", came) if came.error in faults else "no such fault"

    for call in [OPEN, LENGTH, READ_FILE]:
        trial.each(f"{call} fails", fails(call, errno.EIO), judge)
        trial.each(f"{call} is not allowed", fails(call, errno.EACCES, ALWAYS), judge)
        trial.each(f"{call} finds no memory", fails(call, errno.ENOMEM), lambda _, came: wants(1, EARLY, b"", came))


def failing_ends(trial: Trial) -> None:
    """Failures without effect: closing a file, and writing a fault."""
    plain = trial.plain

    def judge(place: int, came: Came) -> Optional[str]:
        return wants(plain.status, plain.error[: place - 1], plain.output, came)

    trial.each("close fails", fails(CLOSE, errno.EIO), trial.is_same)
    trial.each("a fault that cannot be written", fails(WRITE_FAULT, errno.EIO, ALWAYS, most=1), judge)


def early_ends(trial: Trial) -> None:
    """Standard input that ends at each byte is answered like a shorter one."""
    given = trial.given.given

    def judge(place: int, came: Came) -> Optional[str]:
        trial.served.give(given[: place - 1])
        short = trial.served.run()
        trial.served.give(given)
        return None if came.told() == short.told() else "something else than of shorter commands"

    trial.each("standard input ends early", fails(READ, 0, ALWAYS, most=1), judge)


PARTS = [small_pieces, interrupted, failing_reads, failing_writes, failing_files, failing_ends, early_ends]


def devices(suite: Suite, given: Input) -> None:
    with Served(suite.library, [suite.program, *given.words], given.folder, given.given) as served:
        trial = Trial(suite, given, served)
        suite.holds(f"{given.name}: writes are seen", trial.plain.calls[WRITE] + trial.plain.calls[WRITE_FAULT])
        for part in PARTS:
            part(trial)
