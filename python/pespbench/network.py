"""A network as the client knows it, and the working timetable, with the effect of each accepted command."""

from __future__ import annotations

from dataclasses import dataclass, field
from typing import Dict, Iterable, List, Mapping, Optional, Set, Tuple


@dataclass(frozen=True)
class Window:
    """The permitted times of an event: `first` and those after it, `length` in all, modulo the period.

    A length of 1 is a fixed time.
    """

    first: int
    length: int = 1

    def holds(self, period: int, time: int) -> bool:
        """Whether a time is in the window, modulo the period."""
        return (time - self.first) % period < self.length


@dataclass(frozen=True)
class Activity:
    """The time between two events: `lower` to `upper` units, up to whole periods.

    Each unit above `lower` costs `weight`.
    """

    number: int
    from_event: int
    to_event: int
    lower: int
    upper: int
    weight: int = 0

    def slack(self, period: int, times: Mapping[int, int]) -> int:
        """Its distance above its lower bound in a timetable, below the period. Raises KeyError if an end has no time."""
        return (times[self.to_event] - times[self.from_event] - self.lower) % period


@dataclass
class Network:
    """A network: the window of each event, or None, and the activities by number. Only read it; the bench changes it."""

    period: int
    windows: Dict[int, Optional[Window]] = field(default_factory=dict)
    activities: Dict[int, Activity] = field(default_factory=dict)

    @property
    def events(self) -> List[int]:
        """The events, ascending."""
        return sorted(self.windows)

    def _repr_html_(self) -> str:
        from pespbench.showing import network_html

        return network_html(self)

    def copy(self) -> "Network":
        """An independent copy of the network."""
        return Network(self.period, dict(self.windows), dict(self.activities))

    def script(self) -> List[str]:
        """The commands that build the network from nothing, as in `dump`, without its first line."""
        lines = [f"add event {event}" for event in self.events]
        for event in self.events:
            window = self.windows[event]
            if window is not None:
                lines.append(window_command(event, window))
        for number in sorted(self.activities):
            lines.append(activity_command(self.activities[number]))
        return lines

    def text(self) -> str:
        """The reply to `dump`."""
        script = self.script()
        return "".join(f"{line}\n" for line in [f"# period {self.period} lines {len(script)}", *script])


def window_command(event: int, window: Window) -> str:
    """The command that gives an event its window."""
    if window.length == 1:
        return f"fix {event} {window.first}"
    return f"window {event} {window.first} {window.length}"


def activity_command(activity: Activity) -> str:
    """The command that adds an activity."""
    ends = f"{activity.from_event} {activity.to_event}"
    return f"add activity {activity.number} {ends} {activity.lower} {activity.upper} {activity.weight}"


def parts_of(events: Iterable[int], joins: Iterable[Tuple[int, int]]) -> List[Set[int]]:
    """The parts into which pairs of joined events divide all events."""
    parts: Dict[int, Set[int]] = {event: {event} for event in events}
    for first, last in joins:
        larger, smaller = parts[first], parts[last]
        if larger is smaller:
            continue
        if len(larger) < len(smaller):
            larger, smaller = smaller, larger
        larger |= smaller
        for event in smaller:
            parts[event] = larger
    return list({id(part): part for part in parts.values()}.values())
