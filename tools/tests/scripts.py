"""Scripts sent as commands, and dumped again."""

import random
from typing import Iterable, Mapping, Tuple

from tests.harness import Suite, rows_of, within
from tests.limits import FULL_PERIOD, GREATEST_PERIOD, LEAST_PERIOD, MOST_ACTIVITIES, MOST_EVENTS, most_activities, most_events
from tests.rules import Row


def script_of(period: int, events: Iterable[int], windows: Mapping[int, Tuple[int, int]], activities: Iterable[Row]) -> str:
    """The script of an instance, by an independent definition of the form; a window is a first residue and a length, by event."""
    lines = [f"add event {event}" for event in sorted(events)]
    for event, (first, length) in sorted(windows.items()):
        lines.append(f"fix {event} {first}" if length == 1 else f"window {event} {first} {length}")
    lines += [" ".join(map(str, ["add activity", *row])) for row in sorted(activities)]
    return "".join(f"{line}\n" for line in [f"# period {period} lines {len(lines)}", *lines])


def drawn_window(draw: random.Random, event: int, first: int, length: int) -> str:
    """A line that gives an event its window; one of length 1 is written as a fixed time too."""
    return f"fix {event} {first}" if length == 1 and draw.randrange(2) else f"window {event} {first} {length}"


def drawn_script(draw: random.Random) -> Tuple[int, str, str]:
    """A script that builds an instance of a few events in some order, and the script of that instance."""
    period = draw.choice([LEAST_PERIOD, 10, 60, GREATEST_PERIOD])
    events = draw.sample(range(1_000_000_000), draw.randrange(1, 9))
    chosen = [event for event in events if draw.randrange(2)]
    windows = {event: (draw.randrange(period), draw.choice([1, draw.randint(1, period), period])) for event in chosen}
    activities = []
    for number in draw.sample(range(1_000_000_000), draw.randrange(12)):
        bounds = sorted(draw.choices(range(-1_000_000, 1_000_001), k=2))
        ends = draw.choices(events, k=2)
        activities.append((number, *ends, *bounds, draw.randrange(1_000_000_001)))
    lines = [f"add event {event}" for event in events]
    after = [drawn_window(draw, event, *window) for event, window in windows.items()]
    after += ["\t".join(map(str, ["add activity", *row])) for row in activities]
    draw.shuffle(after)
    return period, "\r\n".join([*lines, "", *after]), script_of(period, events, windows, activities)


def dumped(suite: Suite, name: str, period: int, script: str, wanted: str) -> None:
    """The program accepts a script line by line, and its dump is then the script of the result."""
    edits = [line for line in script.splitlines() if line.strip() and not line.startswith("#")]
    given = script.rstrip("\n") + "\ndump\n"
    suite.case(name, ["--period", str(period)], given=given.encode(), output=("ok\n" * len(edits) + wanted).encode())


def scripts(suite: Suite) -> None:
    draw = random.Random(7)
    for number in range(40):
        period, script, wanted = drawn_script(draw)
        dumped(suite, f"drawn script {number}", period, script, wanted)
        dumped(suite, f"written script {number}", period, wanted, wanted)
    faults = {
        "a question between edits": (b"add event 1\ncost\n", b"ok\nrefused 11 event 1 has no time\n"),
        "no number after a comment": (b"# x\nfix x 1\n", b"fault word 2 is not a number\n"),
        "the same edit twice": (b"add event 1\nadd event 1\n", b"ok\nrefused 1 event 1 exists\n"),
        "a fixed time at the period": (b"add event 1\nfix 1 60", b"ok\nrefused 4 time 60 is out of range\n"),
        "a window past the period": (b"add event 1\nwindow 1 0 61", b"ok\nrefused 13 length 61 is out of range\n"),
    }
    for name, (text, output) in faults.items():
        suite.case(f"a script with {name}", [], given=text, output=output)


def most_at_long_periods(suite: Suite) -> None:
    """At 121 and at the greatest period the commands after the greatest numbers of events and activities."""
    for period in [121, GREATEST_PERIOD]:
        events, activities = most_events(period), most_activities(period)
        rows = [(number, number % events, number * 7 % events, 0, period - 1, 1) for number in range(activities)]
        words = ["--period", str(period), suite.file("activities", rows_of(rows))]
        given = f"add event {events}\nadd activity {activities} 1 1 0 0 0\ndrop activity 7\nadd activity {activities} 1 1 0 0 0\n".encode()
        output = b"refused 7 too many events\nrefused 8 too many activities\nok\nok\n"
        suite.case(f"as many as there may be at period {period}", words, given=given, output=output)


@within(240)
def greatest_script(suite: Suite) -> None:
    """An instance of 20,000 events and 100,000 activities opens from a file, is dumped, and refuses one more of each."""
    activities = [(number, number % MOST_EVENTS, number * 7 % MOST_EVENTS, 0, FULL_PERIOD - 1, 1) for number in range(MOST_ACTIVITIES)]
    words = ["--period", str(FULL_PERIOD), suite.file("activities", rows_of(activities))]
    given = f"add event {MOST_EVENTS}\nadd activity {MOST_ACTIVITIES} 1 1 0 0 0\nadd activity 7 1 1 0 0 0\ndump".encode()
    refusals = "refused 7 too many events\nrefused 8 too many activities\nrefused 5 activity 7 exists\n"
    script = script_of(FULL_PERIOD, range(MOST_EVENTS), {}, activities)
    suite.case("the greatest instance", words, given=given, output=(refusals + script).encode())


GROUPS = [scripts, most_at_long_periods, greatest_script]
