"""Replies to checks, compared with the rules."""

import random
from typing import Dict, Optional, Sequence

from tests import rules
from tests.drawn_files import Form, damaged, drawn
from tests.file_cases import TWO, TWO_TIMES
from tests.harness import NAMES, Suite, missing, rows_of, words_for
from tests.limits import GREATEST_PERIOD, LEAST_PERIOD, MOST_ACTIVITIES, MOST_EVENTS, most_activities
from tests.rules import Row, Times


def check_case(suite: Suite, name: str, period: int, activities: Sequence[Row], fixed: Optional[Times], times: Times, form: Optional[Form] = None) -> None:
    write = rows_of if form is None else form.write
    words = ["--period", str(period), "--times", suite.file("times", write(list(times.items())))]
    if fixed is not None:
        words += ["--fixed", suite.file("fixed", write(list(fixed.items())))]
    words.append(suite.file("activities", write(activities)))
    suite.check(name, words, output=rules.replies(period, activities, fixed or {}, times))


def drawn_checks(suite: Suite) -> None:
    draw = random.Random(1989)
    for period in [LEAST_PERIOD, 3, 10, 59, 60, GREATEST_PERIOD]:
        activities, fixed, times = drawn(draw, 400, 60)
        check_case(suite, f"drawn activities at period {period}", period, activities, fixed, times)
    activities, fixed, times = drawn(draw, 300, 300)
    for event in draw.sample(sorted(times), 3):
        del times[event]
    check_case(suite, "drawn activities, three times missing", 60, activities, fixed, times)
    activities, fixed, times = drawn(draw, MOST_ACTIVITIES, MOST_EVENTS)
    check_case(suite, "100,000 activities and 20,000 times", 60, activities, fixed, times)
    for number in range(120):
        activities, fixed, times = drawn(draw, draw.randrange(30), draw.randint(1, 20))
        period = draw.choice([LEAST_PERIOD, 7, 60, GREATEST_PERIOD])
        check_case(suite, f"drawn forms, number {number}", period, activities, fixed, times, Form(draw))


def damaged_files(suite: Suite) -> None:
    draw = random.Random(1876)
    for number in range(400):
        activities, fixed, times = drawn(draw, draw.randint(1, 4), draw.randint(1, 3))
        form = Form(draw)
        rows: Dict[str, Sequence[Sequence[int]]] = {"activities": activities, "fixed": list(fixed.items()), "times": list(times.items())}
        texts = {name: form.write(rows[name]) for name in NAMES}
        for name in draw.choice([["activities"], ["fixed"], ["times"], NAMES]):
            texts[name] = damaged(draw, texts[name])
        words = ["--period", "10", *(word for name in NAMES for word in words_for(name, suite.file(name, texts[name])))]
        suite.check(f"damaged files, number {number}, {texts}", words, **rules.check(10, **texts))


def limit_checks(suite: Suite) -> None:
    greatest = 999_999_999
    corner = [
        (greatest, greatest, 0, -1_000_000, 1_000_000, 1_000_000_000),
        (0, 0, 0, 1_000_000, 1_000_000, 1_000_000_000),
        (1, 0, greatest, -1_000_000, -1_000_000, 0),
    ]
    for period in [LEAST_PERIOD, 7, GREATEST_PERIOD]:
        times = {0: -1_000_000_000, greatest: 1_000_000_000}
        fixed = {greatest: -1_000_000_000, 0: 1_000_000_000}
        check_case(suite, f"values at their limits, period {period}", period, corner, fixed, times)
    weight = 1_000_000_000
    # Each activity has the greatest slack, and at no period do as many as are allowed cost more.
    period = 1_433
    most = [(number, 1, 1, 1, 1, weight) for number in range(most_activities(period))]
    check_case(suite, "the greatest cost", period, most, {1: 1}, {1: 0})
    full = [(number, number % MOST_EVENTS, number * 7 % MOST_EVENTS, 0, 1, 1) for number in range(MOST_ACTIVITIES)]
    times = {event: event for event in range(MOST_EVENTS)}
    fixed = {event: event + (event % 3 == 0) for event in range(MOST_EVENTS)}
    check_case(suite, "20,000 events, each with a fixed time", 60, full, fixed, times)


def fixed_times(suite: Suite) -> None:
    one = [(1, 1, 2, 3, 5, 2)]
    check_case(suite, "no fixed time in the file", 10, one, {}, {1: 0, 2: 3})
    check_case(suite, "no file of fixed times", 10, one, None, {1: 0, 2: 3})
    check_case(suite, "fixed times that are kept", 10, one, {1: 0, 2: 3}, {1: 0, 2: 3})
    check_case(suite, "fixed times modulo the period", 10, one, {1: -10, 2: 23}, {1: 20, 2: -7})
    check_case(suite, "fixed times that are not kept, and no activity", 10, one, {2: 13, 1: 1}, {1: 0, 2: 4})
    check_case(suite, "fixed times a whole period of 60 off", 10, one, {1: 60}, {1: 0, 2: 3})
    check_case(suite, "fixed times 1 off at the least period", 2, one, {1: 1, 2: 1}, {1: 0, 2: 1})
    check_case(suite, "the fixed time of a loop's event", 10, [(1, 4, 4, 0, 0, 1)], {4: 5}, {4: 6})
    order = {event: 1 for event in [30, 4, 100, 20, 3]}
    loops = [(event, event, event, 0, 0, 1) for event in order]
    check_case(suite, "fixed events ascend by number", 10, loops, order, {event: 0 for event in order})
    activities = suite.file("activities", TWO)
    words = ["--fixed", suite.file("fixed", TWO_TIMES), activities]
    suite.check("fixed times are no times", words, output=missing(1))
    words = ["--fixed", suite.file("fixed", b"2; 3\n"), "--times", suite.file("times", b"1; 0\n"), activities]
    suite.check("a fixed event without a time", words, output=missing(2))


def times_of_events(suite: Suite) -> None:
    one = [(1, 1, 2, 3, 5, 2)]
    check_case(suite, "times of other events", 10, one, {}, {7: 5, 2: 3, 1: 0, 0: 1})
    check_case(suite, "times of other events between", 10, [(1, 1, 9, 3, 5, 2)], {9: 4}, {5: 5, 9: 3, 1: 0})
    check_case(suite, "times of other events alone", 10, one, {}, {7: 5, 8: 3})
    check_case(suite, "no activities, and times", 10, [], None, {7: 5})
    check_case(suite, "a loop without its time", 10, [(1, 4, 4, 0, 0, 1)], {4: 0}, {})
    check_case(suite, "an event of a loop alone", 10, [*one, (2, 4, 4, 0, 0, 1)], {}, {1: 0, 2: 3})
    two = [(1, 9, 3, 0, 0, 1), (2, 5, 4, 0, 0, 1)]
    check_case(suite, "the least of the events without a time", 10, two, {}, {3: 0})
    check_case(suite, "an event that activities lead to alone", 10, two, {}, {9: 0, 5: 1, 4: 0})
    many = {event: 0 for event in range(3, 20_001)}
    check_case(suite, "20,000 times, most of other events", 10, one, {1: 0}, {**many, 1: 0, 2: 3})


GROUPS = [fixed_times, times_of_events, limit_checks, drawn_checks, damaged_files]
