"""A session of the library in this process, instead of a program and its pipes."""

from __future__ import annotations

import ctypes
import os
import signal
import threading
import time as clock
import weakref
from functools import partial
from typing import Callable, Iterator, List, Mapping, Optional, Sequence, Tuple, TypeVar, Union

from pespbench.answers import Found, Infeasible, Optimum, Stopped
from pespbench.commands import SEARCHES
from pespbench.faults import BadReply, Ended
from pespbench.files import NUMBERS, RESIDUES
from pespbench.library import BEST_SO_FAR, DONE, FILES, NO_TIMETABLE, NOTHING_YET, OPTIMUM, Calls, Handle, Told, ToldFound, ended_by, fault
from pespbench.transport import AfterMove, OutOfTime, Reached, Transport

Path = Union[str, "os.PathLike[str]"]
Kind = TypeVar("Kind")
# The program's (docs/FORMATS.md, *Limits*).
LEAST_PERIOD, GREATEST_PERIOD = 2, 1_440
LONGEST_FILE = 67_108_864
# The replies to searches fit into the first buffer, so that no search is repeated: 20,000 events with their times.
ROOM = 1 << 19
# Seconds: Ctrl-C is noticed within this time.
LITTLE = 0.1
# Seconds after its deadline at which a search by `pesp_search` is abandoned, and its session lost.
PATIENCE = 1.0
OK = b"ok\n"


class InProcess(Transport):
    """An open session of the library.

    Everything but a search is answered in the calling thread, within about a second; Ctrl-C is noticed after it. A search
    runs in a thread of its own, while the caller waits for it, for Ctrl-C and for its deadline. A call of the library cannot
    be stopped: an abandoned one uses a processor until it ends, and then the session's memory is freed; or until the process
    ends, which does not wait for it. It affects no other session.
    """

    def __init__(self, calls: Calls, period: int, texts: Mapping[str, bytes]) -> None:
        """Opens a session from the bytes of files. Raises Ended if they or the period are refused."""
        if not (isinstance(period, int) and LEAST_PERIOD <= period <= GREATEST_PERIOD):
            raise Ended(2, f"pespbench: the period is not {LEAST_PERIOD} to {GREATEST_PERIOD}")
        self._calls = calls
        self._handle, self._told, self._cost = Handle(), Told(), ctypes.c_uint64()
        # The addresses of a call's arguments, as numbers.
        self._at, self._told_at, self._cost_at = map(ctypes.addressof, (self._handle, self._told, self._cost))
        self._make_room(ROOM)
        # Whether a call is running in a thread, and its result; whether its session is abandoned, or was ended from outside.
        self._is_searching = self._is_given_up = self._is_ended = False
        self._is_over = threading.Event()
        # If nobody closes it, or its search is abandoned, the session ends with its last user.
        self._let_go = weakref.finalize(self, let_go, calls, self._handle, os.getpid())
        self._let_go.atexit = False
        given = [part for name in FILES for part in (texts.get(name, b""), len(texts.get(name, b"")))]
        calls.open(period, *given, self._at, self._told_at)
        if self._told.status != DONE:
            raise ended_by(self._told)

    def _make_room(self, length: int) -> None:
        self._length, self._room = length, ctypes.create_string_buffer(length)
        self._room_at = ctypes.addressof(self._room)

    def replies(self, commands: Sequence[str], deadline: Optional[float] = None) -> Iterator[List[str]]:
        """Sends commands one after another. Raises Ended, OutOfTime and BadReply."""
        for command in commands:
            if self._is_ended:
                raise given_up()
            is_long = deadline is not None or command.split()[0] in SEARCHES
            ask = partial(self._answered, command.encode())
            reply = self._in_time(ask, deadline) if is_long else ask()
            *lines, rest = reply.decode(errors="replace").split("\n")
            if rest or not lines:
                raise BadReply(rest or f"nothing to {command}")
            yield lines

    def _answered(self, line: bytes) -> bytes:
        while True:
            self._calls.ask(self._at, line, len(line), self._room_at, self._length, self._told_at)
            if self._told.status != DONE:
                raise ended_by(self._told)
            length: int = self._told.length
            if length <= self._length:
                return ctypes.string_at(self._room_at, length)
            # The reply to a question, which is repeated if it did not fit.
            self._make_room(length)

    def _in_time(self, ask: Callable[[], Kind], deadline: Optional[float]) -> Kind:
        """The result of a call that may take long."""
        if deadline is not None and deadline <= clock.monotonic():
            raise OutOfTime
        self._is_over.clear()
        if self._is_ended:
            raise given_up()
        self._is_searching = True
        came: List[Union[Kind, Exception]] = []
        threading.Thread(target=self._search, args=(ask, came), name="pespbench search", daemon=True).start()
        is_over = self._is_over_by(deadline)
        if self._is_ended:
            raise given_up()
        if not is_over:
            raise OutOfTime
        [found] = came
        if isinstance(found, Exception):
            raise found
        return found

    def _is_over_by(self, deadline: Optional[float]) -> bool:
        """Waits for the search in short intervals, since a signal just before a wait does not end it."""
        left = LITTLE
        while left > 0 and not self._is_over.wait(left):
            left = LITTLE if deadline is None else min(LITTLE, deadline - clock.monotonic())
        return self._is_over.is_set()

    def _search(self, ask: Callable[[], Kind], came: List[Union[Kind, Exception]]) -> None:
        try:
            came.append(ask())
        except Exception as raised:
            came.append(raised)
        # Either this thread sees that it was abandoned, or the one that abandons it sees that it no longer searches.
        self._is_searching = False
        if self._is_given_up:
            self._let_go()
        self._is_over.set()

    def moved(self, moves: Sequence[Tuple[int, int]], deadline: Optional[float] = None) -> Iterator[AfterMove]:
        """Sets times, each by a call and its cost by another, without parsing a reply if it is accepted."""
        (ask, tell), at, told_at, cost_at = self._calls[1:3], self._at, self._told_at, self._cost_at
        room_at, length, told, cost = self._room_at, self._length, self._told, self._cost
        for event, time in moves:
            line = b"time %d %d" % (event, time)
            ask(at, line, len(line), room_at, length, told_at)
            if told.length == len(OK) and told.status == DONE:
                tell(at, cost_at, told_at)
                if told.status == DONE:
                    yield cost.value
                    continue
            yield from super().moved([(event, time)], deadline)

    def set_time(self, event: int, time: int) -> bool:
        """Sets a time if that is accepted; otherwise nothing has changed."""
        line = b"time %d %d" % (event, time)
        told = self._told
        self._calls.ask(self._at, line, len(line), self._room_at, self._length, self._told_at)
        is_ok: bool = told.length == len(OK) and told.status == DONE
        return is_ok

    def cost(self) -> Optional[int]:
        """The cost if all events have times."""
        self._calls.cost(self._at, self._cost_at, self._told_at)
        return self._cost.value if self._told.status == DONE else None

    def searched(self, nodes: int, events: Sequence[int], deadline: Optional[float] = None) -> Optional[Reached]:
        """The result of `pesp_search`, if the library has it, with whether the next call resumes."""
        call = self._calls.search
        if call is None:
            return None
        return self._in_time(partial(self._reached, call, nodes, events), None if deadline is None else deadline + PATIENCE)

    def priced(self, event: int, time: int, nodes: int, deadline: Optional[float] = None) -> Optional[Reached]:
        """The result of a search with the event at a time, by `pesp_price`, if the library has it."""
        return self._price(self._calls.price, (event, time, nodes), deadline)

    def priced_tension(self, activity: int, tension: int, nodes: int, deadline: Optional[float] = None) -> Optional[Reached]:
        """The same with a tension of the activity."""
        return self._price(self._calls.price_tension, (activity, tension, nodes), deadline)

    def _price(self, call: Optional[Callable[..., None]], asked: Tuple[int, int, int], deadline: Optional[float]) -> Optional[Reached]:
        if call is None:
            return None
        return self._in_time(partial(self._priced, call, asked), None if deadline is None else deadline + PATIENCE)

    def _priced(self, call: Callable[..., None], asked: Tuple[int, int, int]) -> Reached:
        came = ToldFound()
        call(self._at, *asked, ctypes.addressof(came), self._told_at)
        if self._told.status != DONE:
            raise ended_by(self._told)
        return Reached(found_by(came.state, came.cost, {}), came.lower_bound, goes_on=came.goes_on == 1)

    def tried(self, event: int, time: int) -> Optional[int]:
        """By how much a time would change the cost, by `pesp_try_move`, if the library has it and all events have times."""
        call, change = self._calls.try_move, ctypes.c_int64()
        # The program must refuse numbers that C would truncate.
        if call is None or self._is_ended or event not in NUMBERS or time not in RESIDUES:
            return None
        call(self._at, event, time, ctypes.addressof(change), self._told_at)
        return change.value if self._told.status == DONE else None

    def _reached(self, call: Callable[..., None], nodes: int, events: Sequence[int]) -> Reached:
        times, came = (ctypes.c_uint16 * len(events))(), ToldFound()
        call(self._at, nodes, ctypes.addressof(times), len(events), ctypes.addressof(came), self._told_at)
        if self._told.status != DONE:
            raise ended_by(self._told)
        if self._told.length != (len(events) if came.state in (BEST_SO_FAR, OPTIMUM) else 0):
            raise BadReply(f"{self._told.length} times of {len(events)} events in state {came.state}")
        return Reached(found_by(came.state, came.cost, dict(zip(events, times))), came.lower_bound, goes_on=came.goes_on == 1)

    def kill(self) -> None:
        """Frees the session's memory, or leaves that to the search that is running."""
        self._is_given_up = True
        if not self._is_searching:
            self._let_go()

    def end(self) -> None:
        """Makes whoever waits for a search, or asks next, receive Ended; any thread may call it."""
        self._is_ended = True
        self._is_over.set()


def found_by(state: int, cost: int, times: Mapping[int, int]) -> Found:
    """What the library returned about a search. Raises BadReply for an unknown state."""
    if state == BEST_SO_FAR:
        return Stopped(cost, times)
    if state == OPTIMUM:
        return Optimum(cost, times)
    if state not in (NOTHING_YET, NO_TIMETABLE):
        raise BadReply(f"state {state} of the library")
    return Infeasible() if state == NO_TIMETABLE else Stopped()


def let_go(calls: Calls, handle: Handle, owner: int) -> None:
    """Closes a session; a forked process leaves its copy alone, since a call may have been running at the fork."""
    if os.getpid() == owner:
        calls.close(ctypes.addressof(handle))


def given_up() -> Ended:
    """The exception for a caller that waits for a search which another thread has ended."""
    return Ended(-signal.SIGKILL, "pespbench: the search was given up")


def texts_of(paths: Mapping[str, Optional[Path]]) -> Mapping[str, bytes]:
    """The bytes of the files, read in the program's order. Raises Ended for one that cannot be read."""
    return {name: content(name, path) for name in FILES if (path := paths.get(name)) is not None}


def content(name: str, path: Path) -> bytes:
    """The bytes of a file. Raises Ended if it cannot be read, or is too long."""
    place = os.fspath(path)
    try:
        with open(place, "rb") as file:
            data = file.read(LONGEST_FILE + 1)
    except (OSError, ValueError):
        raise fault(f"{name} file cannot be read") from None
    if len(data) > LONGEST_FILE:
        raise fault(f"{name} file is too long")
    return data
