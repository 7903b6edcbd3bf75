"""The interface of a session to its engine, which answers command lines about a network."""

from __future__ import annotations

import re
from typing import Iterator, List, NamedTuple, Optional, Sequence, Tuple, Union

from pespbench.answers import Found

# The cost after a move, or the replies to `time` and to `cost` if these were not accepted.
AfterMove = Union[int, Tuple[List[str], List[str]]]
COST = re.compile("cost ([0-9]{1,17})")


class OutOfTime(Exception):
    """The deadline came before the reply."""


class Reached(NamedTuple):
    """The result of a search, and a lower bound of the cost of each timetable that meets everything, if there is one.

    If it `goes_on`, the next search of the same network resumes this one, and otherwise it restarts.
    """

    found: Found
    lower_bound: Optional[int] = None
    goes_on: bool = False


class Transport:
    """A network that answers command lines."""

    def replies(self, commands: Sequence[str], deadline: Optional[float] = None) -> Iterator[List[str]]:
        """Yields the reply to each command as it arrives, a list of lines.

        If the caller stops before the last, the engine can no longer be used. The deadline is one of `time.monotonic`.
        Raises Ended if the engine ends, OutOfTime at the deadline, and BadReply: then no later reply is reliable.
        """
        raise NotImplementedError

    def moved(self, moves: Sequence[Tuple[int, int]], deadline: Optional[float] = None) -> Iterator[AfterMove]:
        """Sets times, and yields the result of each. Raises what `replies` raises."""
        replies = self.replies([line for event, time in moves for line in (f"time {event} {time}", "cost")], deadline)
        for reply in replies:
            told = next(replies)
            cost = COST.fullmatch(told[0]) if reply == ["ok"] else None
            yield (reply, told) if cost is None else int(cost[1])

    def set_time(self, event: int, time: int) -> bool:
        """Sets a time if that can be done at once and is accepted; otherwise nothing has changed."""
        return False

    def cost(self) -> Optional[int]:
        """The cost if it is known at once."""
        return None

    def searched(self, nodes: int, events: Sequence[int], deadline: Optional[float] = None) -> Optional[Reached]:
        """The result of a search with this many nodes, if it returns more than a reply; `events` are all, ascending.

        It may end after the deadline. Raises what `replies` raises.
        """
        return None

    def priced(self, event: int, time: int, nodes: int, deadline: Optional[float] = None) -> Optional[Reached]:
        """The result of a search with the event at a time, without its times, if there is a call for it. Like `searched`."""
        return None

    def priced_tension(self, activity: int, tension: int, nodes: int, deadline: Optional[float] = None) -> Optional[Reached]:
        """The same with a tension of the activity, up to whole periods; the activity itself then costs nothing."""
        return None

    def tried(self, event: int, time: int) -> Optional[int]:
        """By how much a time would change the cost, if that is known at once; nothing changes."""
        return None

    def is_full(self, lines: int) -> bool:
        """Whether it would reach its limit with this many more lines."""
        return False

    def close(self) -> None:
        """Ends it."""
        self.kill()

    def kill(self) -> None:
        """Ends it by force, or abandons its running call."""
        raise NotImplementedError

    def end(self) -> None:
        """Ends it; any thread may call this, and the one that waits for an answer, or asks next, receives Ended."""
        raise NotImplementedError
