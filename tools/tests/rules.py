"""The output of a check, computed here by the rules of docs/FORMATS.md and docs/RULES.md and without the program.

tools/test_program compares the program with `check`, for the bytes of three files, and with `replies`, for rows.
"""

import re
from typing import Callable, Dict, Iterator, List, Mapping, Sequence, Set, Tuple, TypedDict

from tests.limits import most_activities, most_events

NUMBERS = range(0, 1_000_000_000)
BOUNDS = range(-1_000_000, 1_000_001)
WEIGHTS = range(0, 1_000_000_001)
TIMES = range(-1_000_000_000, 1_000_000_001)
MARK = b"\xef\xbb\xbf"


# The numbers of a row of a file, of which an activity has six.
Row = Tuple[int, ...]
Times = Dict[int, int]
# The pattern of a field, and its range.
Column = Tuple[Callable[[int, bytes, range], int], range]


class Checked(TypedDict):
    """The result of a check."""

    status: int
    output: bytes
    error: bytes


class Faulty(Exception):
    """The text of the fault of a row."""


# The records of a file


def records(text: bytes) -> Iterator[List[bytes]]:
    """The records: each a list of its fields, unquoted and untrimmed."""
    text = text.removeprefix(MARK)
    separator = b";" if b";" in text else b","
    field = re.compile(rb'"([^"]*(?:""[^"]*)*)"?([^%b\r\n]*)|([^%b\r\n]*)' % (separator, separator))
    line_ends = re.compile(rb"[\r\n]*")
    place = match_at(line_ends, text, 0).end()
    while place < len(text):
        fields: List[bytes] = []
        while not fields or text[place : place + 1] == separator:
            found = match_at(field, text, place + (len(fields) > 0))
            quoted, after, plain = found.groups()
            fields.append(plain if quoted is None else quoted.replace(b'""', b'"') + after)
            place = found.end()
        yield fields
        place = match_at(line_ends, text, place).end()


def match_at(pattern: "re.Pattern[bytes]", text: bytes, place: int) -> "re.Match[bytes]":
    """The match of a pattern that matches everywhere."""
    found = pattern.match(text, place)
    assert found is not None
    return found


def rows(text: bytes) -> Iterator[Tuple[int, List[bytes]]]:
    """The numbers of the records that are rows, and their fields."""
    first = True
    for place, fields in enumerate(records(text), 1):
        fields = [field.strip(b" \t") for field in fields]
        if not fields[-1]:
            fields.pop()
        if not fields or fields[0].startswith(b"#"):
            continue
        if not first or not fields[0][:1].isalpha():
            yield place, fields
        first = False


# The meaning of a row


def number(field: int, text: bytes, limits: range) -> int:
    if not re.fullmatch(rb"[+-]?[0-9]+", text):
        raise Faulty(f"field {field} is not a number")
    digits = text.lstrip(b"+-").lstrip(b"0")
    # Twelve digits are beyond all limits, whatever follows them.
    value = int(digits[:12] or b"0") * (-1 if text.startswith(b"-") else 1)
    if value not in limits:
        raise Faulty(f"field {field} is out of range")
    return value


def weight(field: int, text: bytes, limits: range) -> int:
    whole, point, decimals = text.partition(b".")
    if point and (not re.fullmatch(rb"[+-]?[0-9]+", whole) or not re.fullmatch(rb"[0-9]*", decimals)):
        raise Faulty(f"field {field} is not a number")
    if decimals.strip(b"0"):
        raise Faulty("weight has a fraction")
    return number(field, whole, limits)


ACTIVITY = [(number, NUMBERS)] * 3 + [(number, BOUNDS)] * 2 + [(weight, WEIGHTS)]
EVENT_AND_TIME = [(number, NUMBERS), (number, TIMES)]


def values(fields: Sequence[bytes], columns: Sequence[Column]) -> Row:
    if len(fields) != len(columns):
        raise Faulty("wrong number of fields")
    return tuple(read(place, text, limits) for place, (text, (read, limits)) in enumerate(zip(fields, columns), 1))


def read(name: str, text: bytes, take: Callable[[List[bytes]], None]) -> None:
    """Passes the fields of each row on, and reports the first faulty row."""
    for place, fields in rows(text):
        try:
            take(fields)
        except Faulty as fault:
            raise Faulty(f"pespbench: {name} file, record {place}: {fault}\n") from None


def read_activities(period: int, text: bytes) -> Tuple[List[Row], Set[int]]:
    """The rows of activities, and the events that they name."""
    activities: Dict[int, Row] = {}
    events: Set[int] = set()

    def take(fields: List[bytes]) -> None:
        row = values(fields, ACTIVITY)
        if row[3] > row[4]:
            raise Faulty("lower bound above upper bound")
        if row[0] in activities:
            raise Faulty("activity number is repeated")
        if len(events) + len(set(row[1:3]) - events) > most_events(period):
            raise Faulty("too many events")
        if len(activities) == most_activities(period):
            raise Faulty("too many activities")
        activities[row[0]] = row
        events.update(row[1:3])

    read("activities", text, take)
    return list(activities.values()), events


def read_events(name: str, text: bytes, refuse: Callable[[int, Times], None]) -> Times:
    """The times of a file, one for each event; `refuse` returns the additional faults of such a file."""
    times: Times = {}

    def take(fields: List[bytes]) -> None:
        event, time = values(fields, EVENT_AND_TIME)
        if event in times:
            raise Faulty("event is repeated")
        refuse(event, times)
        times[event] = time

    read(name, text, take)
    return times


# The result of a check


def replies(period: int, activities: Sequence[Row], fixed: Mapping[int, int], times: Mapping[int, int]) -> bytes:
    """The replies of a check. An activity is a tuple of its six fields; fixed times and times are by event."""
    events = {event for activity in activities for event in activity[1:3]}
    without = sorted(events - times.keys())
    if without:
        return f"refused 11 event {without[0]} has no time\n".encode() * 3
    lines, violations, cost = [], [], 0
    for name, first, last, lower, upper, each in sorted(activities):
        slack = (times[last] - times[first] - lower) % period
        lines.append(f"{name} {lower + slack} {slack}")
        if slack > upper - lower:
            violations.append(f"activity {name}")
        cost += each * slack
    violations += [f"event {event}" for event in sorted(fixed) if (fixed[event] - times[event]) % period]
    lines = [f"tensions {len(lines)}", *lines, f"violations {len(violations)}", *violations, f"cost {cost}"]
    return "".join(f"{line}\n" for line in lines).encode()


def check(period: int, activities: bytes = b"", fixed: bytes = b"", times: bytes = b"") -> Checked:
    """The exit status, standard output and standard error, for the bytes of the files."""

    def absent(event: int, _: Times) -> None:
        if event not in events:
            raise Faulty("event is not in the instance")

    def too_many(_: int, taken: Times) -> None:
        if len(taken) == most_events(period):
            raise Faulty("too many events")

    try:
        listed, events = read_activities(period, activities)
        text = replies(period, listed, read_events("fixed", fixed, absent), read_events("times", times, too_many))
        return {"status": 0, "output": text, "error": b""}
    except Faulty as fault:
        return {"status": 1, "output": b"", "error": str(fault).encode()}
