"""The cost of building the domains, of maintaining them through edits, and of visiting a node of a search."""

import math
import sys
from pathlib import Path
from typing import Callable, Dict, Iterable, List, Mapping, Optional, Sequence, Tuple, TypeVar

from measuring.counting import count, count_replies, peak, run
from measuring.network import PERIOD, Numbers, activity_rows, events_of, text_of

EDITS = 20
EVENTS_OF_A_FREE_ONE = 10
ACTIVITIES_OF_A_SEARCHED_EVENT = 2
NODES = 2_000
# Lengths of windows.
NARROW = 2
WIDE = 40
Item = TypeVar("Item")


class Network:
    """A network all of whose activities are met at its times, in files, and the words that open it."""

    def __init__(
        self,
        program: Path,
        folder: Path,
        rows: int,
        events: int,
        fixed: Callable[[int], object],
        seed: Optional[int] = None,
        widths: Tuple[int, int] = (8, 20),
        period: int = PERIOD,
    ) -> None:
        numbers = Numbers(seed or rows)
        self.times = [numbers.below(period) for _ in range(events)]
        self.rows = list(activity_rows(numbers, rows, self.times, True, widths, period=period))
        self.fixed = [event for event in range(events) if fixed(event)]
        self.lines = folder / "lines"
        self.profile = folder / "callgrind.network"
        self.memory = folder / "memory"
        activities, times, faulty = (folder / f"{name}.{rows}" for name in ["network", "fixed", "faulty"])
        text = text_of((event, self.times[event]) for event in self.fixed)
        activities.write_text(text_of(self.rows))
        times.write_text(text)
        faulty.write_text(text + "0\n")
        start: List[object] = [program, "--period", str(period), activities, "--fixed"]
        self.words, self.reading_words = [*start, times], [*start, faulty]

    def answers(self, lines: Iterable[str]) -> str:
        self.lines.write_text("".join(f"{line}\n" for line in lines))
        return run(self.words, given=self.lines).stdout

    def takes(self, lines: Iterable[str]) -> int:
        self.lines.write_text("".join(f"{line}\n" for line in lines))
        return count(self.words, self.profile, 0, self.lines)

    def takes_each(self, lines: Iterable[str]) -> List[int]:
        """The cost of each line with a reply of one line; the first one includes the opening."""
        self.lines.write_text("".join(f"{line}\n" for line in lines))
        return count_replies(self.words, self.profile, self.lines)

    def reading(self) -> int:
        """Ends at a faulty row of the fixed times, after reading the activities."""
        return count(self.reading_words, self.profile, 1)

    def pairs(self, lines: Sequence[str]) -> int:
        """The number of residues in all domains after the lines."""
        replies = self.answers([*lines, "domains"]).splitlines()[len(lines) :]
        return sum(len(reply.split()) - 1 for reply in replies)


def some_of(items: Sequence[Item]) -> Sequence[Item]:
    """Items spread over a list."""
    return items[:: max(1, len(items) // EDITS)][:EDITS]


def window_of(network: Network, event: int, length: int) -> str:
    """A line that gives an event a window around its time."""
    return f"window {event} {(network.times[event] - length // 2) % PERIOD} {length}"


def measure_windows(network: Network, events: Sequence[int], built: int) -> Dict[str, float]:
    """The cost of windows: a narrow one for an event without one, and then a wide one. NaN if the program has none."""
    narrow, wide = ([window_of(network, event, length) for event in events] for length in [NARROW, WIDE])
    if network.answers(narrow + wide) != "ok\n" * (len(narrow) + len(wide)):
        return {"window": math.nan, "wider": math.nan}
    narrowed = network.takes(narrow)
    return {
        "window": (narrowed - built) / len(events),
        "wider": (network.takes(narrow + wide) - narrowed) / len(events),
    }


def measure_lone(program: Path, folder: Path, rows: int) -> float:
    """The cost of restoring one residue, which a window excluded, if no event has a fixed time."""
    network = Network(program, folder, rows, events_of(rows), lambda event: False)
    events = some_of(range(len(network.times)))
    narrowed = [f"window {event} {network.times[event]} {PERIOD - 1}" for event in events]
    lines = narrowed + [f"unfix {event}" for event in events]
    if network.answers(lines) != "ok\n" * len(lines):
        return math.nan
    return (network.takes(lines) - network.takes(narrowed)) / len(events)


def measure_edits(program: Path, folder: Path, rows: int) -> Dict[str, float]:
    """The cost of edits of one network, above building it. Nine of ten events have fixed times."""
    network = Network(program, folder, rows, events_of(rows), lambda event: event % EVENTS_OF_A_FREE_ONE)
    built = network.takes([])
    # A span that is moved by a period admits the same, so nothing moves, and both its ends are recounted.
    spans = [f"span {name} {lower + PERIOD} {upper + PERIOD}" for name, _, _, lower, upper, _ in some_of(network.rows)]
    weights = [f"weight {name} {weight}" for name, *_, weight in some_of(network.rows)]
    free = some_of([event for event in range(len(network.times)) if event not in set(network.fixed)])
    fix, unfix = [f"fix {event} {network.times[event]}" for event in free], [f"unfix {event}" for event in free]
    # The greatest network has no room for an activity, so some are dropped and added again.
    drops = [f"drop activity {name}" for name, *_ in some_of(network.rows)]
    adds = [f"add activity {' '.join(map(str, row))}" for row in some_of(network.rows)]
    for lines in [spans, weights, fix + unfix, drops + adds]:
        if network.answers(lines) != "ok\n" * len(lines):
            sys.exit(f"tools/measure: an edit of the network of {rows} rows is refused")
    fixed, pairs = network.takes(fix), network.pairs([]) - network.pairs(fix)
    dropped = network.takes(drops)
    return {
        "rows": rows,
        "events": len(network.times),
        "building": (built - network.reading()) / rows,
        "span": (network.takes(spans) - built) / len(spans),
        "weight": (network.takes(weights) - built) / len(weights),
        "drop": (dropped - built) / len(drops),
        "add": (network.takes(drops + adds) - dropped) / len(adds),
        "pairs": pairs / len(free),
        "fix": (fixed - built) / len(free),
        "unfix": (network.takes(fix + unfix) - fixed) / len(free),
        **measure_windows(network, free, built),
        "lone": measure_lone(program, folder, rows),
        "memory": peak(network.words, network.memory),
    }


def measure_search(program: Path, folder: Path, events: int) -> Optional[float]:
    """The cost of a node of a search, including pushes and pops."""
    network = Network(program, folder, events * ACTIVITIES_OF_A_SEARCHED_EVENT, events, lambda event: False)
    if not network.answers([f"try {NODES}"]).startswith("stopped"):
        return None
    return (network.takes([f"try {NODES}"]) - network.takes([])) / NODES


def print_edits(table: Iterable[Mapping[str, float]]) -> None:
    print("\ninstructions of a building for each activity, and of each edit")
    print(
        f"{'rows':>7} {'events':>7} {'building':>9} {'span':>9} {'weight':>9} {'drop':>9} {'add':>9} {'window':>9} {'wider':>9} {'lone':>9} {'fix':>9} {'unfix':>11} {'residues moved':>15} {'peak kB':>9}"
    )
    for row in table:
        edits = "".join(f" {row[name]:>9.0f}" for name in ["span", "weight", "drop", "add", "window", "wider", "lone", "fix"])
        figures = f"{row['building']:>9.0f}{edits} {row['unfix']:>11.0f}"
        print(f"{row['rows']:>7} {row['events']:>7} {figures} {row['pairs']:>15.1f} {row['memory']:>9}")


def print_searches(program: Path, folder: Path, sizes: Iterable[int]) -> None:
    print("\ninstructions of a node of a search")
    print(f"{'events':>7} {'a node':>9}")
    for events in sizes:
        figure = measure_search(program, folder, events)
        print(f"{events:>7} " + (f"ends before {NODES} nodes" if figure is None else f"{figure:>9.0f}"))
