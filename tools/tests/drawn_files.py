"""Random files for tools/test_program, from numbers that are the same in each run."""

import random
from typing import List, Sequence, Tuple

from tests.rules import MARK, Row, Times

BYTES = [bytes([byte]) for byte in b';,"\n\r #-+.029xA\0'] + [MARK, b"\xff", b";;", b'""', b"\r\n", b"1000000000"]


class Form:
    """A random way to write rows, which represents exactly these rows."""

    def __init__(self, draw: random.Random) -> None:
        self.draw = draw
        self.separator = draw.choice([";", ","])
        self.ends = draw.choice(["\n", "\r\n", "\r", "\n\n", "\r\n \t\r\n"])
        self.mark = draw.choice(["", "\ufeff"])
        headers: List[List[str]] = [[], ["number", "x y"], ['"the\nnumber"', '"a ""b""; c"'], ["Z"]]
        self.header = draw.choice(headers)
        self.last = draw.choice(["", self.separator, f"{self.separator} "])
        self.comments = draw.choice(["#", " \t# note", '"# a\r\nb"', '# a,b "c" d'])

    def field(self, number: int, is_weight: bool) -> str:
        draw = self.draw
        blanks = [draw.choice(["", "", " ", "\t "]) for _ in range(4)]
        sign = "-" if number < 0 else draw.choice(["", "", "+", "-" if number == 0 else ""])
        text = sign + "0" * draw.choice([0, 0, 0, 1, 20]) + str(abs(number))
        text += draw.choice(["", ".", ".0", ".0000"]) if is_weight else ""
        if draw.randrange(4):
            return blanks[0] + text + blanks[1]
        return f'"{blanks[0]}{text}{blanks[1]}"{blanks[2]}'

    def write(self, rows: Sequence[Sequence[int]]) -> bytes:
        draw, lines = self.draw, []
        comma = self.separator == "," or not rows
        header = [field.replace(";", ",") for field in self.header] if comma else self.header
        if header:
            lines.append(self.separator.join(header))
        for row in rows:
            fields = [self.field(number, place == 5) for place, number in enumerate(row)]
            lines.append(self.separator.join(fields) + self.last)
        for _ in range(draw.randrange(4)):
            lines.insert(draw.randrange(len(lines) + 1), draw.choice([self.comments, " \t", ""]))
        ends = self.ends if draw.randrange(2) else ""
        return (self.mark + self.ends.join(lines) + ends).encode()


def drawn(draw: random.Random, count: int, events: int) -> Tuple[List[Row], Times, Times]:
    """Activities with distinct numbers, and a time and perhaps a fixed time for each random event."""
    numbers = draw.sample(range(1_000_000_000), count)
    names = draw.sample(range(1_000_000_000), events)
    activities: List[Row] = []
    for number in numbers:
        lower = draw.choice([draw.randint(-90, 90), draw.randint(-1_000_000, 1_000_000)])
        upper = min(1_000_000, lower + draw.choice([0, 1, draw.randint(0, 130), 2_000_000]))
        weight = draw.choice([0, 1, draw.randint(0, 50), draw.randint(0, 1_000_000_000)])
        activities.append((number, draw.choice(names), draw.choice(names), lower, upper, weight))
    times = {name: draw.choice([draw.randint(0, 119), draw.randint(-10**9, 10**9)]) for name in names}
    named = sorted({event for activity in activities for event in activity[1:3]})
    chosen = draw.sample(named, draw.randint(0, len(named)))
    # A fixed time is often the event's time, in whole periods of 120 or less away from it.
    fixed = {name: draw.choice([times[name] % 120, draw.randint(0, 119), -draw.randint(0, 10**9)]) for name in chosen}
    return activities, fixed, times


def damaged(draw: random.Random, text: bytes) -> bytes:
    """A text with some bytes inserted, removed or exchanged, with a part of it repeated, or without its end."""
    for _ in range(draw.randint(1, 2)):
        place, part = draw.randrange(len(text) + 1), draw.randrange(len(text) + 1)
        kept = draw.choice([place, place, place + 1, place + 1, place + draw.randrange(9), len(text)])
        text = text[:place] + draw.choice([b"", *draw.choices(BYTES, k=8), text[part : part + 30]]) + text[kept:]
    return text
