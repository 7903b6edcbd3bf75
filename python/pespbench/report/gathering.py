"""Queries a bench for all that a report shows, as plain values: all numbers are those of replies, all names those of labels."""

from __future__ import annotations

from typing import Any, Dict, List, Mapping, Optional

from pespbench.answers import Domain, Found, Infeasible
from pespbench.client import Bench
from pespbench.faults import BadReply, Refused
from pespbench.fitting import are_known
from pespbench.places import Place, on_a_map
from pespbench.terminal import shown
from pespbench.wording import found_text

NO_TIME = 11
# The input of page/script/draw/report.js: rows of numbers, and names without control characters.
Content = Dict[str, Any]


def gather(bench: Bench, title: str, places: Optional[Mapping[str, Place]] = None, found: Optional[Found] = None) -> Content:
    """The bench's network, working timetable and labels, by its replies.

    Args:
        bench: answers for domains, tensions, violations and cost.
        title: the title of the report.
        places: places of stations, x to the east and y to the north in any unit; if one is missing, they are laid out.
        found: the result of a search for the best timetable, if there was one.

    Raises:
        Ended: the program ended.
        Refused: the program refused for a reason other than a missing time.
    """
    return {
        "title": shown(title),
        "network": network_of(bench),
        "labels": labels_of(bench),
        "places": [[shown(station), place] for station, place in on_a_map(places or {}).items()],
        "times": [[event, time] for event, time in bench.times.items()],
        "domains": domains_of(bench.domains(), bench.period),
        "search": "" if found is None else found_text(found),
        "isInfeasible": isinstance(found, Infeasible),
        **timetable_of(bench),
    }


def network_of(bench: Bench) -> Content:
    """Events, windows and activities."""
    windows, activities = bench.network.windows, bench.network.activities
    rows = [[number, each.from_event, each.to_event, each.lower, each.upper, each.weight] for number, each in sorted(activities.items())]
    held = [[event, window.first, window.length] for event, window in windows.items() if window is not None]
    return {"period": bench.period, "events": list(windows), "windows": held, "activities": rows}


def labels_of(bench: Bench) -> Content:
    """The names of events and activities."""
    events = bench.labels.events.items()
    rows = [[event, *map(shown, (each.line, each.to, each.station, each.kind))] for event, each in events]
    kinds = [[activity, shown(kind)] for activity, kind in bench.labels.activities.items()]
    return {"events": rows, "kinds": kinds}


def domains_of(domains: Mapping[int, Domain], period: int) -> List[Any]:
    """For each event, the minutes at which it cannot be."""
    return [[event, each.residues] for event, each in domains.items() if len(each.residues) < period]


def timetable_of(bench: Bench) -> Content:
    """The replies on the working timetable; if an event lacks a time, only `missing`, which names it.

    Raises Refused and BadReply.
    """
    try:
        tensions, violations, cost = bench.tensions(), bench.violations(), bench.cost()
    except Refused as refusal:
        if refusal.number != NO_TIME:
            raise
        return {"tensions": None, "violations": None, "cost": None, "missing": f"event {refusal.event} has no time"}
    if not are_known(violations, bench.network):
        raise BadReply(f"violations {len(violations)}")
    rows = [[number, each.tension, each.slack] for number, each in tensions.items()]
    broken = {"activities": violations.activities, "events": violations.events}
    return {"tensions": rows, "violations": broken, "cost": str(cost), "missing": ""}
