"""Two networks and their timetables compared: changed spans, moved times, cost by kind."""

from __future__ import annotations

import argparse
from dataclasses import dataclass
from typing import Iterator, Mapping, Optional

from pespbench.answers import Tension, Violations
from pespbench.client import Bench
from pespbench.faults import Refused
from pespbench.forms import Table, add_form, in_form
from pespbench.labels import Labels
from pespbench.network import Activity, Network, Window
from pespbench.opening import add_network, open_network
from pespbench.terminal import shown, tell
from pespbench.turning import turns
from pespbench.wording import Names, clock, minutes, span_text, window_text

NO_TIME = 11


@dataclass(frozen=True)
class Side:
    """One of the two: a network with its working timetable, and the program's replies about it.

    If a time is missing, `cost` and `violations` are None, and `tensions` is empty.
    """

    network: Network
    labels: Labels
    times: Mapping[int, int]
    tensions: Mapping[int, Tension]
    violations: Optional[Violations]
    cost: Optional[int]

    @classmethod
    def of(cls, bench: Bench) -> Side:
        """The present state of a bench.

        Raises:
            Ended: the program ended.
            Refused: the program refused for a reason other than a missing time.
        """
        copy = bench.network.copy()
        times = dict(bench.times)
        try:
            return cls(copy, bench.labels, times, bench.tensions(), bench.violations(), bench.cost())
        except Refused as refusal:
            if refusal.number != NO_TIME:
                raise
            return cls(copy, bench.labels, times, {}, None, None)

    def costs(self) -> dict[str, int]:
        """What the activities of each kind cost together."""
        found: dict[str, int] = {}
        for number, tension in self.tensions.items():
            kind = shown(self.labels.kind(number)) or "activity"
            found[kind] = found.get(kind, 0) + tension.slack * self.network.activities[number].weight
        return found


def compare(before: Side, after: Side) -> str:
    """The differences after the change, as lines of text."""
    parts = compared(before, after)
    return "\n".join("\n".join([title, *(f"  {row}" for row in rows or ["no change"])]) + "\n" for title, rows in parts.items())


def compared(before: Side, after: Side) -> dict[str, list[str]]:
    """The lines of each group of differences."""
    names = Names(merged(before.labels, after.labels), {**before.network.activities, **after.network.activities})
    return {
        "Network": [*activity_changes(before.network, after.network, names), *event_changes(before.network, after.network, names)],
        "Times": list(moved_times(before, after, names)),
        "Cost by kind": list(cost_rows(before, after)),
        "Violations": [f"{violations_text(before)} before, {violations_text(after)} after"],
    }


def table_of(before: Side, after: Side) -> Table:
    """The same for other programs."""
    facts = {"cost_before": before.cost, "cost": after.cost}
    return Table("compare", facts, ["part", "text"], [[part.lower(), row] for part, rows in compared(before, after).items() for row in rows])


def merged(before: Labels, after: Labels) -> Labels:
    """All labels; those after the change replace those before it."""
    return Labels({**before.events, **after.events}, {**before.activities, **after.activities})


def activity_changes(before: Network, after: Network, names: Names) -> Iterator[str]:
    """Activities that were added, dropped or changed, ascending by number."""
    for number in sorted({*before.activities, *after.activities}):
        old, new = before.activities.get(number), after.activities.get(number)
        if old is None or new is None:
            yield f"{names.activity(number)}: {'added' if old is None else 'dropped'}"
        elif old != new:
            yield f"{names.activity(number)}: {', '.join(changes(old, new, names))}"


def changes(old: Activity, new: Activity, names: Names) -> Iterator[str]:
    """The differences of an activity."""
    if (old.from_event, old.to_event) != (new.from_event, new.to_event):
        yield ", was ".join(f"from {names.event(each.from_event)} to {names.event(each.to_event)}" for each in (new, old))
    if (old.lower, old.upper) != (new.lower, new.upper):
        yield f"{span_text(new.lower, new.upper)} minutes, was {span_text(old.lower, old.upper)}"
    if old.weight != new.weight:
        yield f"weight {new.weight:,}, was {old.weight:,}"


def event_changes(before: Network, after: Network, names: Names) -> Iterator[str]:
    """Events that were added or dropped, or whose windows changed, ascending by number."""
    for event in sorted({*before.windows, *after.windows}):
        if event not in before.windows or event not in after.windows:
            yield f"{names.event(event)}: {'added' if event in after.windows else 'dropped'}"
        elif before.windows[event] != after.windows[event]:
            old, new = held_text(before.windows[event], before.period), held_text(after.windows[event], after.period)
            yield f"{names.event(event)}: {new}, was {old}"
    if before.period != after.period:
        yield f"period {after.period}, was {before.period}"


def held_text(window: Optional[Window], period: int) -> str:
    """The window of an event, in words."""
    return "not held" if window is None else f"held {window_text(window.first, window.length, period)}"


def moved_times(before: Side, after: Side, names: Names) -> Iterator[str]:
    """The times that differ, ascending by event, or one line if all moved alike; what nothing holds is first shifted to agree."""
    period = after.network.period
    times = dict(after.times)
    for events, turn in turns(after.network, times, before.times) if before.network.period == period else ():
        times.update((event, (times[event] + turn) % period) for event in events)
        yield f"{len(events)} times that nothing holds, as of {names.event(events[0])}, turned by {signed(moved(0, turn, period))} to agree"
    shared = [event for event in sorted(times) if event in before.times]
    moves = {event: moved(before.times[event], times[event], period) for event in shared}
    if len(moves) > 1 and len(set(moves.values())) == 1 and moves[shared[0]]:
        yield f"all {len(moves)} times moved by {signed(moves[shared[0]])}"
        return
    for event in sorted({*before.times, *times}):
        if moves.get(event) != 0:
            both = [clock_of(event, before.times, before.network.period), clock_of(event, times, period)]
            yield f"{names.event(event)}: {' to '.join(both)}" + (f" ({signed(moves[event])})" if event in moves else "")


def clock_of(event: int, times: Mapping[int, int], period: int) -> str:
    """The time of an event, if it has one."""
    return clock(times[event], period) if event in times else "no time"


def moved(old: int, new: int, period: int) -> int:
    """By how many minutes a time moved, the shorter way; later if both ways are equally long."""
    later = (new - old) % period
    return later if 2 * later <= period else later - period


def signed(count: int) -> str:
    """A number of minutes with its sign."""
    return f"{'+' if count > 0 else '-'}{minutes(abs(count))}"


def cost_rows(before: Side, after: Side) -> Iterator[str]:
    """The cost by kind in columns, dearest after the change first, and the cost in all."""
    if before.cost is None or after.cost is None:
        yield "not known, since a time is missing"
        return
    old, new = before.costs(), after.costs()
    kinds = sorted({*old, *new}, key=lambda kind: (-new.get(kind, 0), kind))
    rows = [(kind, old.get(kind, 0), new.get(kind, 0)) for kind in kinds] + [("in all", before.cost, after.cost)]
    width = max(len(kind) for kind, _, _ in rows)
    yield f"{'':<{width}} {'before':>14} {'after':>14} {'change':>14}"
    for kind, first, last in rows:
        yield f"{kind:<{width}} {first:>14,} {last:>14,} {last - first:>+14,}"


def violations_text(side: Side) -> str:
    """How many violations a side has."""
    return "not known" if side.violations is None else str(len(side.violations))


def add_parser(subparsers: argparse._SubParsersAction[argparse.ArgumentParser]) -> None:
    """Adds the subcommand's parser."""
    parser = subparsers.add_parser("compare", help="two networks and timetables: spans, times, cost by kind")
    add_network(parser)
    parser.add_argument("other", metavar="OTHER", help="the network after the change, a file or a folder like NETWORK")
    parser.add_argument("--other-fixed", metavar="FILE", help="its fixed times")
    parser.add_argument("--other-times", metavar="FILE", help="its times")
    parser.add_argument("--other-period", type=int, metavar="PERIOD", help="its period [default: that of --period]")
    parser.add_argument("--other-labels", metavar="FILE", help="its labels [default: those of --labels]")
    add_form(parser)
    parser.set_defaults(run=run)


def run(words: argparse.Namespace) -> int:
    """Prints the differences."""
    with open_network(words) as bench:
        before = Side.of(bench)
    words.network, words.fixed, words.times = words.other, words.other_fixed, words.other_times
    words.period = words.period if words.other_period is None else words.other_period
    words.labels = words.labels if words.other_labels is None else words.other_labels
    with open_network(words) as bench:
        after = Side.of(bench)
    tell(in_form(words.form, table_of(before, after), compare(before, after)))
    return 0
