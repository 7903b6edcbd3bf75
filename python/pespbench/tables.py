"""A network as rows of a table, from rows or a DataFrame, and as a graph of networkx. Neither pandas nor networkx is needed for the rest."""

from __future__ import annotations

from importlib import import_module
from operator import index
from typing import Any, Dict, Iterable, Iterator, List, Mapping, NamedTuple, Optional, Tuple, Union

from pespbench.labels import EventLabel, Labels
from pespbench.network import Activity, Network

# A known network, or rows, such as those of a DataFrame.
Given = Union[Network, Iterable[Any]]
NUMBERS = ("activity", "from_event", "to_event", "lower", "upper", "weight")
# Other names of columns, as in files.
OTHER_NAMES = {"from_event": "from", "to_event": "to"}
USUAL_PERIOD = 60


class ActivityRow(NamedTuple):
    """An activity in the working timetable: `pandas.DataFrame(bench.rows())` has these columns.

    `tension`, `slack` and `met` are None if an end has no time.
    """

    activity: int
    from_event: int
    to_event: int
    lower: int
    upper: int
    weight: int
    kind: str
    tension: Optional[int]
    slack: Optional[int]
    met: Optional[bool]


def rows_of(network: Network, times: Mapping[int, int], labels: Labels) -> List[ActivityRow]:
    """A row for each activity, ascending."""
    return [row_of(network.activities[number], network.period, times, labels.kind(number)) for number in sorted(network.activities)]


def row_of(each: Activity, period: int, times: Mapping[int, int], kind: str) -> ActivityRow:
    """The row of an activity."""
    span = each.number, each.from_event, each.to_event, each.lower, each.upper, each.weight
    if each.from_event not in times or each.to_event not in times:
        return ActivityRow(*span, kind, None, None, None)
    slack = each.slack(period, times)
    return ActivityRow(*span, kind, each.lower + slack, slack, slack <= each.upper - each.lower)


def network_of(given: Given, period: Optional[int]) -> Tuple[Network, Labels]:
    """The given network, with the kinds of its activities if rows have them; the default period is 60.

    A row is an Activity, six numbers or more, or has columns by their names, as a mapping or a row of `rows` is. Raises
    TypeError for an invalid row or a value that is not a whole number, KeyError for a missing column, and ValueError for a repeated activity.
    """
    if isinstance(given, Network):
        return Network(given.period if period is None else index(period), dict(given.windows), dict(given.activities)), Labels()
    labels, activities = Labels(), {}
    for activity, kind in map(activity_of, records_of(given)):
        if activity.number in activities:
            raise ValueError(f"activity {activity.number} comes twice")
        activities[activity.number] = activity
        if kind:
            labels.activities[activity.number] = kind
    events = {event for each in activities.values() for event in (each.from_event, each.to_event)}
    return Network(USUAL_PERIOD if period is None else index(period), dict.fromkeys(sorted(events)), activities), labels


def records_of(given: Any) -> Iterator[Any]:
    """The rows of a DataFrame as mappings, and all others unchanged."""
    is_frame = hasattr(given, "columns") and hasattr(given, "to_dict")
    return iter(given.to_dict("records") if is_frame else given)


def activity_of(row: Any) -> Tuple[Activity, str]:
    """The activity of a row, and its kind or an empty text. Raises TypeError and KeyError."""
    if isinstance(row, Activity):
        return row, ""
    if not isinstance(row, Mapping):
        row = row._asdict() if hasattr(row, "_asdict") else dict(zip(NUMBERS, row))
    numbers = [index(row[name] if name in row else row[OTHER_NAMES.get(name, name)]) for name in NUMBERS]
    kind = row.get("kind", "")
    return Activity(*numbers), kind if isinstance(kind, str) else ""


def graph_of(network: Network, times: Mapping[int, int], labels: Labels) -> Any:
    """A MultiDiGraph of networkx: events with their labels, windows and times, and activities, by number, with their rows.

    Raises ModuleNotFoundError if networkx is not installed.
    """
    graph = import_module("networkx").MultiDiGraph(period=network.period)
    for event in network.events:
        graph.add_node(event, **event_values(labels.events.get(event, EventLabel())), window=network.windows[event], time=times.get(event))
    for row in rows_of(network, times, labels):
        graph.add_edge(row.from_event, row.to_event, key=row.activity, **row._asdict())
    return graph


def event_values(label: EventLabel) -> Dict[str, str]:
    """The names of an event."""
    return {"line": label.line, "to": label.to, "station": label.station, "kind": label.kind}
