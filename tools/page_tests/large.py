"""A network of some 2,000 events: regions side by side, each with stations and lines of its own."""

import re
from typing import Dict, List, Mapping

from pespbench.drawn import draw_region

REGIONS = 19


def with_train(texts: Mapping[str, str]) -> Dict[str, str]:
    """The same files, with the first line's trains as one of 20 events: it turns at its end by a dwell."""
    first = ""
    labels: List[str] = []
    for row in texts["labels"].splitlines():
        number, *fields = [field.strip() for field in row.split(";")]
        if number.isdigit() and len(fields) == 4 and int(number) <= 20:
            first = first or fields[1]
            row = "; ".join([number, fields[0], first, *fields[2:]])
        labels.append(re.sub(r"^19; *turnaround$", "19; dwell", row))
    return {**texts, "labels": "".join(f"{row}\n" for row in labels)}


def texts(count: int = REGIONS, unmet: int = 0) -> Dict[str, str]:
    """The texts of its files by their kinds. The region `unmet`, from 1 up, has no timetable; with 0 each has one."""
    activities: List[str] = []
    times: List[str] = []
    events: List[str] = []
    kinds: List[str] = []
    shift = 0
    for seed in range(1, count + 1):
        region = draw_region(seed, feasible=seed != unmet)
        for event in region.events:
            events.append(
                f"{event.number + shift}; {event.line}.{seed}; {event.to} {seed}; {event.station} {seed}; {event.kind}"
            )
            times.append(f"{event.number + shift}; {event.time}")
        for each in region.activities:
            number = len(activities) + 1
            activities.append(
                f"{number}; {each.first + shift}; {each.last + shift}; {each.lower}; {each.upper}; {each.weight}"
            )
            kinds.append(f"{number}; {each.kind}")
        shift += len(region.events)
    labels = ["event; line; to; station; kind", *events, "activity; kind", *kinds]
    return {
        name: "".join(f"{row}\n" for row in rows)
        for name, rows in [("activities", activities), ("times", times), ("labels", labels), ("period", ["60"])]
    }
