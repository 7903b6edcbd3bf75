"""Whole streams: the longest line, the greatest number of lines, and random lines compared with the model."""

import copy
import random
import time
from typing import Any, AnyStr, Callable, Dict, List, Optional, Sequence

from tests import model
from tests.changes import keeps
from tests.commands import model_of
from tests.file_cases import TWO
from tests.harness import Suite, patient, run, within
from tests.limits import GREATEST_PERIOD
from tests.parsing import COMMANDS, EDITS, LONGEST_LINE, MOST_LINES, Fault, parse

# The most seconds in which lines are left out of a wrong stream.
SHORTENING = 20
COUNTED = {"domains": 1, "tensions": 1, "violations": 1, "optimum": 2, "stopped": 2, "#": 4}


def followed(first: str) -> int:
    """How many lines follow the first line of a reply."""
    words = first.split()
    place = COUNTED.get(words[0], len(words))
    return int(words[place]) if place < len(words) else 0


# Lines that are too long, and too many lines


def longest_line(suite: Suite) -> None:
    fault = "pespbench: line {} is longer than 4096 bytes\n"
    activities = suite.file("activities", TWO)
    no_time = b"refused 11 event 1 has no time\n"
    table = {
        "4,096 blanks": (b" " * LONGEST_LINE, b"", 0),
        "4,096 blanks and a line feed": (b" " * LONGEST_LINE + b"\n", b"", 0),
        "4,097 blanks": (b" " * (LONGEST_LINE + 1), b"", 1),
        "4,096 blanks and a carriage return": (b" " * LONGEST_LINE + b"\r\n", b"", 1),
        "a comment of 4,096 bytes": (b"#" + b"x" * (LONGEST_LINE - 1) + b"\ncost\n", no_time, 0),
        "a comment of 4,097 bytes": (b"#" + b"x" * LONGEST_LINE + b"\ncost\n", b"", 1),
        "a command within 4,096 bytes": (b"cost".rjust(LONGEST_LINE) + b"\n", no_time, 0),
        "a command at the end of 4,097 bytes": (b"cost".rjust(LONGEST_LINE + 1) + b"\n", b"", 1),
        "a long line after a reply": (b"cost\n" + b"x" * (LONGEST_LINE + 1) + b"\ncost\n", no_time, 2),
        "a long line after blank ones": (b"\n#\n\n" + b" " * (LONGEST_LINE + 1), b"", 4),
        "a line of many megabytes": (b"cost\n" + b"1" * 20_000_000, no_time, 2),
        "long lines in pieces of a buffer": ((b" " * LONGEST_LINE + b"\n") * 200 + b"cost", no_time, 0),
    }
    for name, (given, output, line) in table.items():
        wanted: Dict[str, Any] = {"status": 1, "error": fault.format(line).encode()} if line else {}
        suite.case(name, ["--period", "10", activities], given=given, output=output, **wanted)
    with open("/dev/zero", "rb") as zeros:
        suite.case("a line without end", [], stdin=zeros, status=1, error=fault.format(1).encode())


@within(300)
def number_of_lines(suite: Suite) -> None:
    fault: Dict[str, Any] = {"status": 1, "error": b"pespbench: more than 1000000 lines\n"}
    feeds = b"\n" * MOST_LINES
    suite.case("1,000,000 lines", [], given=feeds)
    suite.case("one byte more", [], given=feeds + b"#", **fault)
    suite.case("one line feed more", [], given=feeds + b"\n", **fault)
    suite.case("one line more that is too long", [], given=feeds + b"x" * 5_000, **fault)
    suite.case("999,999 lines and one without its end", [], given=feeds[:-1] + b"cost", output=b"cost 0\n")
    suite.case("a reply at the last line", [], given=feeds[:-1] + b"cost\n", output=b"cost 0\n")
    suite.case("a reply before too many lines", [], given=feeds[:-1] + b"cost\ncost", output=b"cost 0\n", **fault)


@within(300)
def many_cheap_lines(suite: Suite) -> None:
    """1,000,000 lines in bulk; the time is generous, against work that grows with the number of lines."""
    how = {"seconds": 120}
    output = b"refused 2 no event 1\n" * MOST_LINES
    suite.case("1,000,000 refusals", [], given=b"untime 1\n" * MOST_LINES, output=output, **how)
    output = b"fault unknown command\n" * MOST_LINES
    suite.case("1,000,000 faults", [], given=b"x\n" * MOST_LINES, output=output, **how)


# Random lines


def drawn_number(draw: random.Random, count: int) -> int:
    """A number of an event or activity: usually an existing one."""
    return draw.randint(1, count) if draw.randrange(12) else draw.choice([0, 9, 77, 999_999_999])


def drawn_length(draw: random.Random, period: int) -> int:
    """The length of a window: of every valid length, and sometimes an invalid one."""
    return draw.randint(1, period) if draw.randrange(10) else draw.choice([0, period + 1, 65_535])


def drawn_command(draw: random.Random, period: int, name: str) -> str:
    event, activity = drawn_number(draw, 4), drawn_number(draw, 6)
    lower = draw.choice([draw.randint(-period, period), draw.randint(0, period)])
    upper = lower + draw.choice([0, 1, 2, draw.randrange(period), period])
    time = draw.randrange(period) if draw.randrange(10) else draw.choice([period, period + 1, 65_535])
    ends = [drawn_number(draw, 4), drawn_number(draw, 4)]
    weight = draw.choice([0, 1, 1, 2, 3, 10, 1_000_000_000])
    numbers = {
        "add activity": [activity, *ends, lower, upper, weight],
        "span": [activity, lower, upper],
        "weight": [activity, weight],
        "ends": [activity, *ends],
        "fix": [event, time],
        "window": [event, time, drawn_length(draw, period)],
        "time": [event, time],
        "drop activity": [activity],
        "try": [draw.choice([0, 1, 2, 3, 5, 10, 50, 200])],
    }
    given = numbers.get(name, [event] if COMMANDS[name] else [])
    return " ".join(map(str, [name, *given]))


def drawn_line(draw: random.Random, period: int) -> bytes:
    # There are always few events and activities, and few of them are fixed, so that there is often an optimum.
    often = ["add event", "add activity", "span", "weight", "window", "time", "try", "optimum", "adopt", "domains"]
    name = draw.choice([*COMMANDS, *often, "add event", "add activity"])
    line = drawn_command(draw, period, name)
    if draw.randrange(20) == 0:
        shorter = line.rsplit(" ", 1)[0]
        line = draw.choice(["", "# a", line.upper(), f"{line} 1", shorter, f" \t{line}\r", f"{line}x", "add"])
    return line.encode()


def drawn_lines(draw: random.Random, period: int, count: int) -> List[bytes]:
    """Lines that usually begin with a network of a few events and activities, one of which may have a window."""
    lines = [drawn_line(draw, period) for _ in range(count)]
    if draw.randrange(10) == 0:
        return lines
    events = draw.sample(range(1, 5), draw.randint(2, 4))
    network = [f"add event {event}" for event in events]
    for activity in draw.sample(range(1, 7), draw.randint(1, 6)):
        ends, lower = draw.choices(events, k=2), draw.randint(-period, period)
        upper = lower + draw.choice([0, 1, 2, draw.randrange(period)])
        network.append(f"add activity {activity} {ends[0]} {ends[1]} {lower} {upper} {draw.randrange(5)}")
    if draw.randrange(2):
        network.append(f"window {draw.choice(events)} {draw.randrange(period)} {draw.randint(1, period)}")
    return [*(line.encode() for line in network), *lines]


def searches(line: bytes) -> bool:
    """Whether the line searches for a timetable, which at a long period takes seconds."""
    return line.lower().split()[:1] in ([b"optimum"], [b"adopt"], [b"try"])


def compared(bench: model.Model, lines: Sequence[bytes], output: bytes) -> Optional[Dict[str, object]]:
    """The first line whose reply is not legal, with the expected and the actual reply; None if there is none."""
    rest = output.decode("latin-1").split("\n")[:-1]
    is_known = False
    for place, line in enumerate(lines, 1):
        before = copy.deepcopy(bench) if is_known else None
        wanted = bench.reply(line)
        came = rest[: 1 + followed(rest[0])] if wanted and rest and rest[0] else []
        is_try = came and line.split()[:1] == [b"try"] and came[0].startswith("stopped")
        legal = not is_known and bench.may_try(int(line.split()[1]), came) if is_try else came == wanted
        if not legal:
            return {"line": place, "given": line, "wanted": wanted, "came": came}
        rest = rest[len(came) :]
        is_known = knows(before, bench, line, came)
    return {"left": rest} if rest else None


def knows(before: Optional[model.Model], after: model.Model, line: bytes, reply: Sequence[str]) -> bool:
    """Whether the optimum is known after a line; `before` is the model before it if it was known there, and otherwise None."""
    try:
        name, numbers = parse(line) or ("", [])
    except Fault:
        name, numbers = "", []
    if name in ("optimum", "adopt") or name == "try" and not reply[0].startswith("stopped"):
        return True
    is_edited = name in EDITS and reply == ["ok"]
    return before is not None and (not is_edited or keeps(before, after, name, numbers))


def shortened(lines: Sequence[AnyStr], is_wrong: Callable[[Sequence[AnyStr]], bool]) -> List[AnyStr]:
    """Lines of a wrong stream that are wrong alone: halves are left out first, then smaller parts, as long as there is time."""
    left, size, until = list(lines), len(lines), time.monotonic() + patient(SHORTENING)
    while size := size // 2:
        for end in range(len(left), 0, -size):
            fewer = left[: max(0, end - size)] + left[end:]
            if time.monotonic() < until and is_wrong(fewer):
                left = fewer
    return left


def play(suite: Suite, name: str, bench: model.Model, words: Sequence[object], lines: Sequence[bytes]) -> None:
    """Compares the replies to a stream; the first wrong one of a group is reported by few lines that are wrong alone."""
    wanted = {"status": 0, "standard error": b"", "first reply that is wrong": None}

    def played(lines: Sequence[bytes]) -> Dict[str, object]:
        came = run([suite.program, *words], given=b"\n".join(lines))
        return {**came, "first reply that is wrong": compared(copy.deepcopy(bench), lines, came["standard output"])}

    def is_wrong(came: Dict[str, object]) -> bool:
        return any(came[title] != wanted[title] for title in wanted)

    came = played(lines)
    if is_wrong(came) and suite.has_passed():
        few = shortened(lines, lambda fewer: is_wrong(played(fewer)))
        again = played(few)
        # A fault that comes only now and then stays the first one.
        if is_wrong(again):
            came, name = again, f"{name}, by these lines alone: " + " / ".join(line.decode() for line in few)
    suite.note(name, wanted, came)


def shortened_streams(suite: Suite) -> None:
    """What is left of a wrong stream is wrong, and of its lines those that are not needed are gone."""
    lines = [b"%d" % number for number in range(60)]
    for needed in ([b"0"], [b"59"], [b"7", b"8", b"40"], lines[10:20]):
        left = shortened(lines, lambda fewer: [line for line in fewer if line in needed] == needed)
        suite.note(f"{needed} of 60 lines", {"left": needed}, {"left": left})


@within(300)
def drawn_streams(suite: Suite) -> None:
    draw = random.Random(1825)
    for number in range(120):
        period = draw.randint(2, 12)
        lines = drawn_lines(draw, period, 60)
        play(suite, f"drawn stream {number} at period {period}", model.Model(period), ["--period", str(period)], lines)
    for number in range(30):
        words = ["--period", "10", suite.file("activities", TWO)]
        play(suite, f"drawn stream {number} of two trains", model_of(10, TWO), words, drawn_lines(draw, 10, 60))


@within(300)
def long_streams(suite: Suite) -> None:
    """Streams at periods above 120, around which a count takes one byte more."""
    draw = random.Random(1440)
    for number in range(2):
        for period in [121, 255, 256, 257, 720, GREATEST_PERIOD - 1, GREATEST_PERIOD]:
            lines = drawn_lines(draw, period, 25)
            play(suite, f"drawn stream {number} at period {period}", model.Model(period), ["--period", str(period)], lines)


GROUPS = [longest_line, number_of_lines, many_cheap_lines, drawn_streams, long_streams, shortened_streams]
