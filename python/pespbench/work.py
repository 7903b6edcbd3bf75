"""A network with its working timetable, changed by accepted commands."""

from __future__ import annotations

from dataclasses import dataclass, field, replace
from typing import Callable, Dict, List, Mapping, Optional

from pespbench.commands import split
from pespbench.network import Activity, Network, Window, activity_command, window_command


@dataclass
class Work:
    """The client's state: the network, and the time of each event that has one, below the period."""

    network: Network
    times: Dict[int, int] = field(default_factory=dict)

    def script(self) -> List[str]:
        """The commands that build it from nothing."""
        return [*self.network.script(), *(f"time {event} {self.times[event]}" for event in sorted(self.times))]

    def apply(self, command: str) -> List[str]:
        """Makes an accepted change, and returns the commands that undo it, in their order.

        Raises KeyError for a command that changes nothing.
        """
        name, numbers = split(command)
        return _DOERS[name](self, *numbers)

    def set_times(self, times: Mapping[int, int]) -> List[str]:
        """Replaces the times of all events, and returns the commands that undo it."""
        back = self.change_to(times, self.times)
        self.times = dict(times)
        return back

    @staticmethod
    def change_to(old: Mapping[int, int], new: Mapping[int, int]) -> List[str]:
        """The commands that change one working timetable into another."""
        gone = [f"untime {event}" for event in sorted(old) if event not in new]
        return gone + [f"time {event} {new[event]}" for event in sorted(new) if old.get(event) != new[event]]

    def _add_event(self, event: int) -> List[str]:
        self.network.windows[event] = None
        return [f"drop event {event}"]

    def _drop_event(self, event: int) -> List[str]:
        back = [f"add event {event}"]
        window = self.network.windows.pop(event)
        if window is not None:
            back.append(window_command(event, window))
        if event in self.times:
            back.append(f"time {event} {self.times.pop(event)}")
        return back

    def _window(self, event: int, first: int, length: int = 1) -> List[str]:
        return self._put_window(event, Window(first, length))

    def _unfix(self, event: int) -> List[str]:
        return self._put_window(event, None)

    def _put_window(self, event: int, window: Optional[Window]) -> List[str]:
        old = self.network.windows[event]
        self.network.windows[event] = window
        return [f"unfix {event}" if old is None else window_command(event, old)]

    def _add_activity(self, number: int, first: int, last: int, lower: int, upper: int, weight: int) -> List[str]:
        self.network.activities[number] = Activity(number, first, last, lower, upper, weight)
        return [f"drop activity {number}"]

    def _drop_activity(self, number: int) -> List[str]:
        return [activity_command(self.network.activities.pop(number))]

    def _span(self, number: int, lower: int, upper: int) -> List[str]:
        old = self.network.activities[number]
        self.network.activities[number] = replace(old, lower=lower, upper=upper)
        return [f"span {number} {old.lower} {old.upper}"]

    def _weight(self, number: int, weight: int) -> List[str]:
        old = self.network.activities[number]
        self.network.activities[number] = replace(old, weight=weight)
        return [f"weight {number} {old.weight}"]

    def _ends(self, number: int, first: int, last: int) -> List[str]:
        old = self.network.activities[number]
        self.network.activities[number] = replace(old, from_event=first, to_event=last)
        return [f"ends {number} {old.from_event} {old.to_event}"]

    def _time(self, event: int, time: int) -> List[str]:
        back = f"time {event} {self.times[event]}" if event in self.times else f"untime {event}"
        self.times[event] = time
        return [back]

    def _untime(self, event: int) -> List[str]:
        return [f"time {event} {self.times.pop(event)}"]


_DOERS: Dict[str, Callable[..., List[str]]] = {
    "add event": Work._add_event,
    "drop event": Work._drop_event,
    "fix": Work._window,
    "window": Work._window,
    "unfix": Work._unfix,
    "add activity": Work._add_activity,
    "drop activity": Work._drop_activity,
    "span": Work._span,
    "weight": Work._weight,
    "ends": Work._ends,
    "time": Work._time,
    "untime": Work._untime,
}


def work_of(script: List[str], period: int) -> Work:
    """The network and times of a script, all of whose commands are accepted. Raises KeyError or ValueError for other lines."""
    work = Work(Network(period))
    for line in script:
        work.apply(line)
    return work


def network_of(script: str) -> Network:
    """The network of a reply to `dump`, or of a script with such a first line. Raises ValueError for any other text."""
    first, *lines = script.splitlines() or [""]
    words = first.split()
    if words[:2] != ["#", "period"] or len(words) < 3:
        raise ValueError("the first line of a script is `# period T lines N`")
    network = Network(int(words[2]))
    work = Work(network)
    for line in lines:
        try:
            work.apply(line)
        except (KeyError, IndexError, TypeError, ValueError):
            raise ValueError(f"no line of a script: {line[:100]}") from None
    return network
