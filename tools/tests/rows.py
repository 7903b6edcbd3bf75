"""The forms of files, and faulty rows."""

from tests.file_cases import (
    ABSENT,
    ACTIVITIES,
    ACTIVITY_FAULTS,
    ACTIVITY_FORMS,
    CROSSED,
    EVENT_FAULTS,
    EVENT_FORMS,
    EVENT_TWICE,
    EVENTS,
    FIXED_FAULTS,
    TWICE,
    TWO,
    TWO_FIXED,
    TWO_TIMES,
)
from tests.harness import Suite, record
from tests.limits import GREATEST_PERIOD, MOST_ACTIVITIES, MOST_EVENTS, most_activities, most_events
from tests.replies import TWO_REPLIES


def written_forms(suite: Suite) -> None:
    activities, times = suite.file("two", TWO), suite.file("two times", TWO_TIMES)
    shifted = suite.file("shifted", b"1; 1\n2; 4\n")
    all_moved = TWO_REPLIES.replace(b"violations 1\nactivity 2\n", b"violations 3\nactivity 2\nevent 1\nevent 2\n")
    for name, text in ACTIVITY_FORMS.items():
        words = ["--period", "10", "--times", times, suite.file("activities", text)]
        suite.check(f"activities: {name}", words, output=TWO_REPLIES)
    for name, text in EVENT_FORMS.items():
        path = suite.file("events", text)
        suite.check(f"times: {name}", ["--period", "10", "--times", path, activities], output=TWO_REPLIES)
        words = ["--period", "10", "--fixed", path, activities]
        suite.check(f"fixed: {name}, kept", [*words, "--times", times], output=TWO_REPLIES)
        suite.check(f"fixed: {name}, not kept", [*words, "--times", shifted], output=all_moved)


def faulty_rows(suite: Suite) -> None:
    for name, (text, number, kind) in ACTIVITY_FAULTS.items():
        path = suite.file("faulty", text)
        suite.check(f"activities: {name}", [path], status=1, error=record("activities", number, kind))
    activities = suite.file("activities", TWO + b"11; 2; 2; 0; 0; 0")
    for source, table in [("times", EVENT_FAULTS), ("fixed", EVENT_FAULTS), ("fixed", FIXED_FAULTS)]:
        for name, (text, number, kind) in table.items():
            words = [f"--{source}", suite.file("faulty", text), activities]
            suite.check(f"{source}: {name}", words, status=1, error=record(source, number, kind))
    words = ["--fixed", suite.file("faulty", TWO_FIXED)]
    suite.check("fixed: no activities", words, status=1, error=record("fixed", 1, ABSENT))
    words = ["--fixed", suite.file("faulty", b"7; 0"), "--times", suite.file("times", b"7; 0"), activities]
    suite.check("fixed: an event of the times alone", words, status=1, error=record("fixed", 1, ABSENT))


def loop(number: int, event: int) -> bytes:
    return b"%d; %d; %d; 0; 9; 0\n" % (number, event, event)


def too_many_activities(suite: Suite) -> None:
    def refused(name: str, rows: bytes, number: int, kind: str) -> None:
        error = record("activities", number, kind)
        suite.check(f"activities: {name}", [suite.file("many", rows)], status=1, error=error)

    loops = b"".join(loop(number, number) for number in range(MOST_EVENTS + 1))
    refused("loops at one event too many", loops, MOST_EVENTS + 1, EVENTS)
    without_last = b"".join(loop(number, number) for number in range(MOST_EVENTS - 1))
    refused("two new events after all but one", without_last + f"{MOST_EVENTS - 1}; {MOST_EVENTS}; {MOST_EVENTS + 1}; 0; 9; 0".encode(), MOST_EVENTS, EVENTS)
    between = b"".join(b"%d; 1; 2; 0; 9; 0\n" % number for number in range(MOST_ACTIVITIES + 1))
    refused("one too many of them between two events", between, MOST_ACTIVITIES + 1, ACTIVITIES)
    full = b"".join(loop(number, number % MOST_EVENTS) for number in range(MOST_ACTIVITIES))
    table = {
        "a new number": (loop(MOST_ACTIVITIES, 0), ACTIVITIES),
        "a new number and event": (loop(MOST_ACTIVITIES, MOST_EVENTS), EVENTS),
        "an old number and a new event": (loop(7, MOST_EVENTS), TWICE),
        "crossed bounds and an old number": (f"7; 7; {MOST_EVENTS}; 1; 0; 0".encode(), CROSSED),
    }
    for name, (row, kind) in table.items():
        refused(f"{name} after as many as there may be", full + row, MOST_ACTIVITIES + 1, kind)


def too_many_times(suite: Suite) -> None:
    rows = b"".join(b"%d; 0\n" % event for event in range(MOST_EVENTS + 1))
    words = ["--times", suite.file("many", rows)]
    suite.check("times: one too many", words, status=1, error=record("times", MOST_EVENTS + 1, EVENTS))
    repeated = rows[: rows.rfind(b"%d;" % MOST_EVENTS)] + b"0; 0\n"
    words = ["--times", suite.file("many", repeated)]
    suite.check("times: a repeat before too many", words, status=1, error=record("times", MOST_EVENTS + 1, EVENT_TWICE))
    activities = suite.file("activities", b"".join(loop(event, event) for event in range(MOST_EVENTS)))
    words = ["--fixed", suite.file("many", rows), activities]
    suite.check("fixed: one too many", words, status=1, error=record("fixed", MOST_EVENTS + 1, ABSENT))
    words = ["--fixed", suite.file("many", repeated), activities]
    suite.check("fixed: a repeat after as many as there may be", words, status=1, error=record("fixed", MOST_EVENTS + 1, EVENT_TWICE))


def long_periods(suite: Suite) -> None:
    """Above 120 a network may have fewer events and activities the longer the period is."""
    for period in [121, 720, GREATEST_PERIOD]:
        words, events, activities = ["--period", str(period)], most_events(period), most_activities(period)
        loops = b"".join(loop(number, number) for number in range(events + 1))
        error = record("activities", events + 1, EVENTS)
        suite.check(f"activities: one event too many at period {period}", [*words, suite.file("many", loops)], status=1, error=error)
        between = b"".join(b"%d; 1; 2; 0; 9; 0\n" % number for number in range(activities + 1))
        error = record("activities", activities + 1, ACTIVITIES)
        suite.check(f"activities: one too many at period {period}", [*words, suite.file("many", between)], status=1, error=error)
        times = b"".join(b"%d; 0\n" % event for event in range(events + 1))
        error = record("times", events + 1, EVENTS)
        suite.check(f"times: one too many at period {period}", [*words, "--times", suite.file("many", times)], status=1, error=error)
        full = b"".join(loop(number, number % events) for number in range(activities))
        no_time = b"refused 11 event 0 has no time\n" * 3
        suite.check(f"as many as there may be at period {period}", [*words, suite.file("many", full)], output=no_time)


GROUPS = [written_forms, faulty_rows, too_many_activities, too_many_times, long_periods]
