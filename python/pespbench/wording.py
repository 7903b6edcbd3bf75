"""Events and activities in a planner's words: by stations and lines if there are labels, otherwise by numbers."""

from __future__ import annotations

from dataclasses import dataclass
from typing import Mapping

from pespbench.answers import Found, Infeasible, Optimum
from pespbench.labels import EventLabel, Labels
from pespbench.network import Activity
from pespbench.terminal import shown


@dataclass(frozen=True)
class Named:
    """An event with its label."""

    number: int
    line: str
    to: str
    station: str
    kind: str


@dataclass(frozen=True)
class NamedKind:
    """An activity with its kind."""

    number: int
    kind: str


# What the line of a train does at a station, by the kind of the event.
DONE = {"departure": "leaves", "arrival": "arrives at"}


def train_name(event: Named) -> str:
    """The train of an event, as `R1 to Cranley`."""
    return " to ".join(filter(None, [event.line, event.to])) or "a train"


def event_name(event: Named) -> str:
    """An event, such as `R1 to Cranley leaves Benton`, or `event 7` if it has no station."""
    if not event.station:
        return f"event {event.number}"
    if event.kind in DONE:
        return f"{train_name(event)} {DONE[event.kind]} {event.station}"
    return " ".join(filter(None, [train_name(event), event.kind, "at", event.station]))


def activity_name(activity: NamedKind, first: Named, last: Named) -> str:
    """An activity, such as `change at Benton from R1 to Cranley to R3 to Dale`, or by the numbers of its events."""
    kind = activity.kind or "activity"
    if not (first.station and last.station):
        return f"{kind} {activity.number} from {event_name(first)} to {event_name(last)}"
    if (first.line, first.to) == (last.line, last.to):
        if first.station == last.station:
            return f"{kind} of {train_name(first)} at {first.station}"
        return f"{kind} of {first.line or train_name(first)} from {first.station} to {last.station}"
    if first.line == last.line and first.station == last.station and kind == "turnaround":
        return f"{kind} of {first.line} at {first.station}"
    trains = f"from {train_name(first)} into {train_name(last)}"
    if kind == "headway":
        trains = f"between {train_name(first)} and {train_name(last)}"
    where = first.station if first.station == last.station else f"{first.station} and {last.station}"
    return f"{kind} at {where} {trains}"


def minutes(count: int) -> str:
    """A number of minutes with its word."""
    return f"{count} minute" if count == 1 else f"{count} minutes"


def span_text(lower: int, upper: int) -> str:
    """A span, as `4 to 10`, or `4` if it has one value."""
    return str(lower) if lower == upper else f"{lower} to {upper}"


def is_of_hours(period: int) -> bool:
    """Whether minutes of a period are written with their hour, as on the page."""
    return period > 60


def clock(minute: int, period: int) -> str:
    """A minute of the period, as `:07`, or `23:41` if it has several hours."""
    return f"{minute // 60}:{minute % 60:02d}" if is_of_hours(period) else f":{minute:02d}"


def window_text(first: int, length: int, period: int) -> str:
    """The minutes of a window, as `at :07` or `from :55 to :05`."""
    if length == 1:
        return f"at {clock(first, period)}"
    return f"from {clock(first, period)} to {clock((first + length - 1) % period, period)}"


def found_text(found: Found) -> str:
    """The result of a search, in a sentence."""
    if isinstance(found, Optimum):
        return f"The best timetable costs {found.cost:,}."
    if isinstance(found, Infeasible):
        return "No timetable meets everything."
    if found.cost is not None:
        return f"A timetable that meets everything costs {found.cost:,}; whether there is a better one is undecided."
    return "Whether a timetable meets everything is undecided."


class Names:
    """The names of a network's events and activities, safe for a terminal."""

    def __init__(self, labels: Labels, activities: Mapping[int, Activity]) -> None:
        self.labels, self.activities = labels, activities

    def event(self, number: int) -> str:
        """An event in words."""
        return event_name(self.named(number))

    def activity(self, number: int) -> str:
        """An activity in words, by the events at its ends."""
        activity = self.activities[number]
        kind = NamedKind(number, shown(self.labels.kind(number)))
        return activity_name(kind, self.named(activity.from_event), self.named(activity.to_event))

    def named(self, number: int) -> Named:
        """An event with its label, safe for a terminal."""
        label = self.labels.events.get(number, EventLabel())
        return Named(number, shown(label.line), shown(label.to), shown(label.station), shown(label.kind))
