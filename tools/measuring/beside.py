"""Costs of the program compared with a plain one of the same algorithms, tools/measuring/plain; their replies are compared."""

import pathlib
import random
import shutil
import sys
from statistics import mean
from typing import Dict, Iterator, List, Optional, Tuple

from measuring.checks import Form, check_of
from measuring.counting import count, peak, run
from measuring.keeper import EVENTS_OF_A_FREE_ONE, Network, some_of
from measuring.network import PERIOD, text_of
from tests.limits import MOST_ACTIVITIES, MOST_EVENTS
from tests.rules import Row
from tests.streams import drawn_command

FOLDER = pathlib.Path(__file__).resolve().parent / "plain"
PLAIN = FOLDER / "out/plain"
FORMS = [Form("ascending", activities_ascend=True), Form("in no order")]
# The numbers of events and activities of a published network.
SPARSE_EVENTS, SPARSE_ROWS = 3_664, 6_385
SMALL_EVENTS, SMALL_ROWS = 200, 1_000
STREAMS, LINES = 200, 60
# The commands of the plain program, and the periods that it supports.
COMMANDS = ["domain", "domains", "tensions", "span", "weight", "fix", "unfix", "window", "add activity", "drop activity", "ends"]
PERIODS = [2, 3, 5, 7, 10, 12, 24, 60]


# A figure: its name, its value, and the replies to compare.
Figure = Tuple[str, float, str]


def plain_program() -> Optional[pathlib.Path]:
    """The plain program, rebuilt if it is older than its sources; None without rustc."""
    sources = list(FOLDER.glob("*.rs"))
    if not PLAIN.exists() or PLAIN.stat().st_mtime < max(path.stat().st_mtime for path in sources):
        if not shutil.which("rustc"):
            return None
        PLAIN.parent.mkdir(exist_ok=True)
        run(["rustc", "-O", "-C", "codegen-units=1", "--edition", "2024", "-o", PLAIN, FOLDER / "main.rs"])
    return PLAIN


def is_fixed(event: int) -> bool:
    return event % EVENTS_OF_A_FREE_ONE != 0


def is_never(_: int) -> bool:
    return False


def timed(network: Network) -> List[object]:
    """The words that open a network with its times."""
    path = network.memory.with_name("times.beside")
    path.write_text(text_of(enumerate(network.times)))
    return [*network.words, "--times", path]


def checks(program: pathlib.Path, folder: pathlib.Path) -> Iterator[Figure]:
    """Each check: its name, its instructions for each activity, and its replies."""
    start = count([program, "--check"], folder / "callgrind.empty")
    for form in FORMS:
        check, *_ = check_of(program, folder, MOST_ACTIVITIES, form)
        yield f"check, {form.name}", (count(check, folder / "callgrind.check") - start) / MOST_ACTIVITIES, run(check).stdout
    check = [*timed(Network(program, folder, SPARSE_ROWS, SPARSE_EVENTS, is_never)), "--check"]
    yield "check, sparse", (count(check, folder / "callgrind.check") - start) / SPARSE_ROWS, run(check).stdout


def openings(program: pathlib.Path, folder: pathlib.Path) -> Iterator[Figure]:
    start = count([program, "--period", str(PERIOD)], folder / "callgrind.empty")
    for rows in [SMALL_ROWS, 10 * SMALL_ROWS]:
        network = Network(program, folder, rows, rows * SMALL_EVENTS // SMALL_ROWS, is_fixed)
        yield f"opening, {rows} activities", (network.takes([]) - start) / rows, network.answers(["domains"])


def questions(program: pathlib.Path, folder: pathlib.Path) -> Iterator[Figure]:
    """A domain line of an event that can be at every minute."""
    network = Network(program, folder, SMALL_ROWS, SMALL_EVENTS, is_never)
    network.words = timed(network)
    start = network.takes([])
    for name, lines in [("domains", SMALL_EVENTS), ("tensions", SMALL_ROWS)]:
        yield f"a line of {name}", (network.takes([name]) - start) / lines, network.answers([name])


def edits(program: pathlib.Path, folder: pathlib.Path) -> Iterator[Figure]:
    """Edits of one kind spread over a network, each after those before it."""
    network = Network(program, folder, SMALL_ROWS, SMALL_EVENTS, is_fixed)
    rows = some_of(network.rows)
    free = some_of([event for event in range(SMALL_EVENTS) if not is_fixed(event)])
    drops = [f"drop activity {row[0]}" for row in rows]
    fix = [f"fix {event} {network.times[event]}" for event in free]
    works: Dict[str, Tuple[List[str], List[str]]] = {
        "a span that moves nothing": ([], [f"span {name} {lower + PERIOD} {upper + PERIOD}" for name, _, _, lower, upper, _ in rows]),
        "a weight": ([], [f"weight {name} {weight}" for name, *_, weight in rows]),
        "fix": ([], fix),
        "unfix": (fix, [f"unfix {event}" for event in free]),
        "an activity dropped": ([], drops),
        "an activity added": (drops, [f"add activity {' '.join(map(str, row))}" for row in rows]),
    }
    for name, (before, lines) in works.items():
        yield name, (network.takes([*before, *lines]) - network.takes(before)) / len(lines), network.answers([*before, *lines, "domains"])


def is_empty(replies: str) -> bool:
    """Whether all domains in the replies are empty."""
    return all(len(line.split()) == 1 for line in replies.splitlines() if ":" in line)


def emptying(program: pathlib.Path, folder: pathlib.Path) -> Iterator[Figure]:
    """Activities reversed, each alone, with which no event can be at any minute; each is restored before the next."""
    network = Network(program, folder, SMALL_ROWS, SMALL_EVENTS, is_fixed)
    turned = [(f"ends {name} {last} {first}", f"ends {name} {first} {last}") for name, first, last, *_ in some_of(network.rows)]
    lines = [line for away, back in turned if is_empty(network.answers([away, "domains"])) for line in (away, back)]
    # The first line includes the opening.
    each = network.takes_each(["weight 0 0", *lines])[1:]
    yield "`ends` that empty the rows", mean(each[::2]), network.answers([*lines, "domains"])
    yield "and back", mean(each[1::2]), ""


def memories(program: pathlib.Path, folder: pathlib.Path) -> Iterator[Figure]:
    for name, fixed in [("none fixed", is_never), ("nine of ten fixed", is_fixed)]:
        network = Network(program, folder, MOST_ACTIVITIES, MOST_EVENTS, fixed)
        yield f"kB, greatest network, {name}", peak(network.words, network.memory), ""


def drawn_stream(draw: random.Random, folder: pathlib.Path) -> List[object]:
    """The words of a random network with times and fixed times, and lines of the commands that the plain program has."""
    period, events = draw.choice(PERIODS), draw.randint(1, 6)
    table: List[Row] = []
    for name in draw.sample(range(1, 12), draw.randint(1, 10)):
        lower = draw.randint(-2 * period, 2 * period)
        upper = lower + draw.choice([0, 1, 2, draw.randrange(period), period])
        table.append((name, draw.randint(1, events), draw.randint(1, events), lower, upper, draw.randrange(5)))
    named = sorted({event for row in table for event in row[1:3]})
    files: Dict[str, List[Row]] = {
        "activities": table,
        "fixed": [(event, draw.randint(-100, 100)) for event in named if draw.randrange(4) == 0],
        "times": [(event, draw.randint(-100, 100)) for event in named if draw.randrange(30)],
    }
    for kind, rows in files.items():
        (folder / f"drawn.{kind}").write_text(text_of(rows))
    lines = [drawn_command(draw, period, draw.choice([*COMMANDS, "domains"])) for _ in range(LINES)]
    (folder / "drawn.lines").write_text("".join(f"{line}{draw.choice(['', '', '', ' 1', 'x'])}\n" for line in lines))
    words = ["--fixed", folder / "drawn.fixed", "--times", folder / "drawn.times", folder / "drawn.activities"]
    return ["--period", str(period), *words]


def compare(name: str, replies: str, plain_replies: str) -> None:
    """Ends if the two programs differ, with the first line that does."""
    if replies == plain_replies:
        return
    for number, lines in enumerate(zip(replies.splitlines(), plain_replies.splitlines()), 1):
        if lines[0] != lines[1]:
            sys.exit(f"tools/measure: {name}: line {number} of the replies is {lines[0]!r}, and of the plain program {lines[1]!r}")
    sys.exit(f"tools/measure: {name}: the plain program has another number of lines")


def compare_streams(program: pathlib.Path, plain: pathlib.Path, folder: pathlib.Path, streams: int) -> None:
    draw = random.Random(60)
    for number in range(streams):
        words = drawn_stream(draw, folder)
        asked: List[Tuple[List[str], Optional[pathlib.Path]]] = [([], folder / "drawn.lines"), (["--check"], None)]
        for more, given in asked:
            here, there = (run([each, *words, *more], given=given).stdout for each in (program, plain))
            compare(f"drawn stream {number}", here, there)


def print_beside(program: pathlib.Path, folder: pathlib.Path, streams: int) -> None:
    """Each figure of the program, and of the plain one if it exists, with their ratio."""
    plain = plain_program()
    print(f"\n{'instructions':<34} {'here':>11}" + (f" {'plain':>11} {'times':>7}" if plain else ""))
    for work in [checks, openings, questions, edits, emptying, memories]:
        for found in zip(*(work(each, folder) for each in filter(None, [program, plain]))):
            name, figure, replies = found[0]
            line = f"{name:<34} {figure:>11.0f}"
            for _, plain_figure, plain_replies in found[1:]:
                compare(name, replies, plain_replies)
                line += f" {plain_figure:>11.0f} {figure / plain_figure:>7.2f}"
            print(line, flush=True)
    if plain:
        compare_streams(program, plain, folder, streams)
        print(f"the replies of both are the same, and to {streams} drawn streams")
    else:
        print("there is no rustc, so nothing stands beside")
