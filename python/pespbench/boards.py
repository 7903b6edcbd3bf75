"""The timetable of a search by stations, if labels name them: which trains arrive and leave at each, by the minute."""

from __future__ import annotations

from typing import Dict, List, Tuple

from pespbench.answers import Found
from pespbench.replies import text_of
from pespbench.wording import Named, Names, clock, event_name, found_text, train_name

# What the line of a train does, by the kind of the event.
DONE = {"departure": "leaves", "arrival": "arrives"}


def timetable_text(found: Found, names: Names, period: int) -> str:
    """The result of a search, by stations; as the program returns it if no event has a station."""
    if not any(label.station for label in names.labels.events.values()):
        return text_of("optimum", found)
    boards: Dict[str, List[Tuple[int, str]]] = {}
    for event, time in found.times.items():
        named = names.named(event)
        boards.setdefault(named.station, []).append((time, done_text(named)))
    # Events without a station are the last.
    stations = sorted(boards, key=lambda station: (not station, station))
    lines, width = [found_text(found)], len(clock(period - 1, period))
    for station in stations:
        lines += ["", station or "at no station", *(f"  {clock(time, period):>{width}}  {done}" for time, done in sorted(boards[station]))]
    return "".join(f"{line}\n" for line in lines)


def done_text(event: Named) -> str:
    """What happens, without its station: `M to Cranley leaves`."""
    return f"{train_name(event)} {DONE.get(event.kind, event.kind)}".rstrip() if event.station else event_name(event)
