"""Stands in for the library in process: its calls in Python, over a function that answers lines."""

from __future__ import annotations

import ctypes
import re
from array import array
from functools import partial
from typing import Callable, Dict, List, MutableSequence, Optional, Tuple, Union

from pespbench.commands import CHANGES, name_of
from pespbench.library import Calls, Handle, Told, ToldFound

Answer = Union[bytes, int]
MEMORY, REFUSED = 6, 13
# The state of a search by the first words of the reply to `try`.
STATES = {b"stopped none": 0, b"stopped": 1, b"optimum": 2, b"infeasible": 3}
# The commands that change more than times.
EDITS = CHANGES - {"time", "untime"}


class StandIn:
    """Answers by the reply to a line, or by the status given instead. It counts opened and closed sessions.

    If it has the lower bound that a search returns after a number of nodes, it has `pesp_search`, too. Successive calls are
    one search, which answers like `try` with all their nodes; an edit of the network restarts it. If it has prices, by an
    event or activity, a residue and nodes, it has the calls for them: each is a state, a cost and a lower bound.
    """

    def __init__(
        self, answer: Callable[[bytes], Answer], status: int = 0, bound: Optional[Callable[[int], int]] = None,
        price: Optional[Callable[[int, int, int], Tuple[int, int, int]]] = None,
    ) -> None:  # fmt: skip
        self.answer, self.status, self.bound, self.price = answer, status, bound, price
        # The last is the nodes of the search so far.
        self.opened = self.closed = self.nodes = 0
        # The lines so far.
        self.lines: MutableSequence[bytes] = []

    def calls(self) -> Calls:
        """The calls, as those of a library."""
        prices = [partial(self._price, name) if self.price else None for name in (b"pesp_price", b"pesp_price_tension")]
        return Calls(self._open, self._ask, self._cost, self._close, self._search if self.bound else None, None, *prices)

    def _open(self, *given: int) -> None:
        Told.from_address(given[-1]).status = self.status
        if self.status == 0:
            self.opened += 1
            self.nodes = 0
            Handle.from_address(given[-2]).is_open = True

    def _ask(self, _: int, line: bytes, length: int, room: int, room_length: int, told: int) -> None:
        assert len(line) == length
        self.lines.append(line)
        if name_of(line.decode()) in EDITS:
            self.nodes = 0
        self._tell(self.answer(line), room, room_length, Told.from_address(told))

    def _tell(self, answer: Answer, room: int, room_length: int, told: Told) -> None:
        reply = answer if isinstance(answer, bytes) else b""
        told.length, told.status = len(reply), answer if isinstance(answer, int) else 0
        ctypes.memmove(room, reply, min(room_length, len(reply)))

    def _cost(self, _: int, cost: int, told: int) -> None:
        answer = self.answer(b"cost")
        found = re.fullmatch(b"cost ([0-9]+)\n", answer) if isinstance(answer, bytes) else None
        Told.from_address(told).status = answer if isinstance(answer, int) else 0 if found else REFUSED
        if found:
            ctypes.c_uint64.from_address(cost).value = int(found[1])

    def _search(self, _: int, nodes: int, room: int, room_length: int, found: int, told: int) -> None:
        self.lines.append(b"pesp_search %d" % nodes)
        self.nodes += nodes
        answer, telling = self.answer(b"try %d" % self.nodes), Told.from_address(told)
        telling.status = answer if isinstance(answer, int) else 0
        if isinstance(answer, bytes):
            first, *rows = answer.splitlines()
            self._tell_found(ToldFound.from_address(found), first.split())
            times = array("H", [int(row.split()[1]) for row in rows])
            telling.length = len(times)
            ctypes.memmove(room, times.tobytes(), 2 * min(room_length, len(times)))

    def _tell_found(self, found: ToldFound, words: List[bytes]) -> None:
        """Reports the first words of a reply, and the bound."""
        found.state = STATES[b" ".join(words) if words[-1] == b"none" else words[0]]
        found.cost = int(words[1]) if found.state in (1, 2) else 0
        found.lower_bound = self.bound(self.nodes) if self.bound else 0
        found.goes_on = found.state < 2

    def _price(self, name: bytes, _: int, number: int, residue: int, nodes: int, found: int, told: int) -> None:
        assert self.price is not None
        self.lines.append(b"%b %d %d %d" % (name, number, residue, nodes))
        telling = ToldFound.from_address(found)
        telling.state, telling.cost, telling.lower_bound = self.price(number, residue, nodes)
        telling.goes_on, Told.from_address(told).status = telling.state < 2, 0

    def _close(self, handle: int) -> None:
        self.closed += Handle.from_address(handle).is_open
        Handle.from_address(handle).is_open = False


def usual(line: bytes, others: "Dict[bytes, Callable[[], Answer]]") -> Answer:
    """The reply of a network without events that accepts all edits, except to lines that others answer."""
    if line in others:
        return others[line]()
    return {b"dump": b"# period 10 lines 0\n", b"cost": b"cost 7\n"}.get(line, b"ok\n")
