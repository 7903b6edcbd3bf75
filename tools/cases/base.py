"""Random cases of crates/pesp_base: tensions, windows, numbers in texts, bounds and limits."""

import random
from typing import Dict, Iterator, List

from cases.terms import Case, agreed, boolean, codes, defined, fields, integer, numbers, one, option, used
from tests.limits import most_activities, most_events
from tests.network import Network
from tests.rules import BOUNDS, NUMBERS, TIMES, WEIGHTS, Faulty, number, read_activities

CRATE = "pesp_base"
PERIODS = [2, 3, 5, 10, 24, 60, 120, 255, 256, 257, 1439, 1440]
SPANS = 10
TIMES_OF_A_SPAN = 8
WINDOWS = 8
TEXTS = 240
BOUND_PAIRS = 120

USED: Dict[str, List[str]] = {
    "std.proofs.Common": ["◌≡◌", "ℕ", "ℤ", "Bool", "List", "refl", "pos", "negsuc", "true", "false", "[]", "◌∷◌", "Option", "Some", "None", "Ok", "Err", "filter", "codes"],
    "std.specs.List": ["range_with_len"],
    "pesp_base.specs.declared.number.NumberFault.TheVariants as number": [],
    "pesp_base.specs.declared.span.SpanFault.TheVariants as span_fault": [],
    "pesp_base.specs.Bounds": ["Bounds", "span_of"],
    "pesp_base.specs.Limits": ["max_activities", "max_events"],
    "pesp_base.specs.Numbers": ["number_in"],
    "pesp_base.specs.Tensions": ["is_met", "slack_of", "tension_of"],
    "pesp_base.specs.Windows": ["Interval", "is_held", "only_time"],
}


def bounds_drawn(draw: random.Random, period: int) -> List[int]:
    """Bounds below and above zero, at times that differ by a period or more, and at the greatest distance of bounds."""
    lower = draw.choice([draw.randrange(period), draw.randint(-2 * period, 2 * period), draw.choice([BOUNDS[0], BOUNDS[-1] - 3])])
    return [lower, min(lower + draw.choice([0, 1, 2, draw.randrange(period), period - 1, period, 3 * period]), BOUNDS[-1])]


def tensions(draw: random.Random, period: int) -> Iterator[Case]:
    """Of an activity between two events: tension, slack, and whether it is met."""
    for _ in range(SPANS):
        bounds = bounds_drawn(draw, period)
        network = Network(period, [(1, 1, 2, *bounds, 1)])
        for _ in range(TIMES_OF_A_SPAN):
            times = {1: draw.randrange(period), 2: draw.randrange(period)}
            slack = network.slack(network.activities[1], times)
            asked = [str(period), *(one(integer(bound)) for bound in bounds), *map(str, times.values())]
            answer = [integer(bounds[0] + slack), str(slack), boolean(network.met(network.activities[1], times))]
            yield Case(f"told {' '.join(asked)}", f"({', '.join(answer)})")


def windows(draw: random.Random, period: int) -> Iterator[Case]:
    """Of a window: its residues, and its time if it has only one."""
    for _ in range(WINDOWS):
        first, length = draw.randrange(period), draw.choice([1, draw.randint(1, period), period])
        network = Network(period)
        network.add_event(1)
        network.window(1, first, length)
        time = option(str(first) if length == 1 else None)
        yield Case(f"window {period} {first} {length}", f"({numbers(network.admitted(1))}, {time})")


def text_drawn(draw: random.Random, limits: range) -> str:
    """A number in digits, usually near a limit, or an invalid text."""
    near = draw.choice([limits[0], limits[-1], 0, draw.choice(limits)]) + draw.choice([-1, 0, 0, 1])
    digits = str(abs(near)).rjust(draw.choice([1, 1, 1, 20]), "0")
    text = ("-" if near < 0 else draw.choice(["", "", "+", "-"])) + digits
    return draw.choice([text] * 6 + ["", "+", "-", f"{text}x", f"-{text}", f"{text} ", f"{text}.0", text + "0" * 30])


def number_of(text: str, limits: range) -> str:
    try:
        return f"Ok {one(integer(number(1, text.encode(), limits)))}"
    except Faulty as fault:
        return f"Err number.{'OutOfRange' if 'range' in str(fault) else 'NotANumber'}"


def texts(draw: random.Random) -> Iterator[Case]:
    for _ in range(TEXTS):
        limits = draw.choice([NUMBERS, BOUNDS, WEIGHTS, TIMES])
        text = text_drawn(draw, limits)
        ends = " ".join(one(integer(end)) for end in (limits[0], limits[-1]))
        yield Case(f"number_in {ends} {one(codes(text))}", number_of(text, limits))


def spans(draw: random.Random) -> Iterator[Case]:
    for _ in range(BOUND_PAIRS):
        near = [draw.choice([BOUNDS[0], BOUNDS[-1], draw.randint(-5, 5)]) + draw.randint(-1, 1) for _ in range(2)]
        bounds = dict(zip(["lower", "upper"], map(integer, near)))
        try:
            read_activities(10, f"1; 1; 2; {near[0]}; {near[1]}; 1".encode())
            answer = f"Ok {one(fields(bounds))}"
        except Faulty as fault:
            answer = f"Err span_fault.{'OutOfRange' if 'range' in str(fault) else 'Crossed'}"
        yield Case(f"span_of {' '.join(map(one, bounds.values()))}", answer)


def limits_of(periods: List[int]) -> Iterator[Case]:
    for period in periods:
        yield Case(f"limits {period}", f"({most_events(period)}, {most_activities(period)})")


def lines(draw: random.Random) -> Iterator[str]:
    yield from used(USED)
    yield ""
    span = fields({"lower": "lower", "upper": "upper"})
    term = f"let span : Bounds = {span} in (tension_of period span r s, slack_of period span r s, is_met period span r s)"
    yield from defined("the tension and the slack of an activity of these bounds, and whether it is met", "told", "ℕ → ℤ → ℤ → ℕ → ℕ → ℤ × ℕ × Bool", "told period lower upper r s", term)
    held = f"let w : Interval = {fields({'first': 'first', 'length': 'length'})} in (filter (is_held period w) (range_with_len 0 period), only_time w)"
    yield from defined("the residues of a window, and its time where it is one alone", "window", "ℕ → ℕ → ℕ → List ℕ × Option ℕ", "window period first length", held)
    yield from defined("how many events and activities there may be", "limits", "ℕ → ℕ × ℕ", "limits period", "(max_events period, max_activities period)")
    for period in PERIODS:
        yield from agreed(f"tensions_at_{period}", list(tensions(draw, period)))
    for period in PERIODS[:6]:
        yield from agreed(f"windows_at_{period}", list(windows(draw, period)))
    yield from agreed("numbers_in_texts", list(texts(draw)))
    yield from agreed("spans_of_bounds", list(spans(draw)))
    yield from agreed("limits_at_periods", list(limits_of(sorted(draw.sample(range(2, 1441), 60)))))
