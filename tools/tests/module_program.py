"""The page's module instead of the program: its first message, its streams, and its bytes compared with the program's."""

import random
from concurrent.futures import ThreadPoolExecutor
from pathlib import Path
from typing import Dict, Iterator, List, Sequence, Tuple

from tests.command_cases import CASES
from tests.commands import text_of
from tests.dialogue import Dialogue
from tests.drawn_runs import drawn_run
from tests.examples import content, folders, words_of
from tests.file_cases import ACTIVITY_FAULTS, ACTIVITY_FORMS, EVENT_FAULTS, EVENT_FORMS, FIXED_FAULTS, TWO, TWO_TIMES
from tests.harness import NAMES, NOT_READ, NOT_WRITTEN, TOP, VERSION, Came, Suite, Words, run, within, words_for
from tests.streams import drawn_lines

START = TOP / "tools/pespbench"
MODULE = TOP / "tools/pespbench_module"
NOT_PROVED = b"tools/pespbench: the page's module runs, under Node: nothing of what it answers is proved\n"
STREAMS, LINES, AT_ONCE = 2_000, 40, 4
# The folder of a case, its words, and its input.
Case = Tuple[Path, Words, bytes]
# How many lines a session repeats after a hundred networks that were added and dropped: before a query, an optimum and a try.
KEPT = """
const { Kept } = require(process.argv[1]);
const kept = new Kept();
const say = line => kept.change(line.split(' '), Buffer.from(line));
for (let round = 0; round < 100; round++) {
  ['add event 1', 'add event 2', 'add activity 7 1 2 3 5 1', 'fix 1 0', 'ends 7 2 1', 'time 2 3'].forEach(say);
  kept.search(['optimum'], Buffer.from('optimum'), 'optimum');
  ['drop activity 7', 'drop event 2', 'drop event 1'].forEach(say);
}
console.log(...['cost', 'optimum', 'try'].map(name => kept.before([name]).length));
"""


def module_start(suite: Suite) -> None:
    """Its first message is that nothing is proved; streams, statuses and faults are then the program's."""
    activities = suite.file("activities", TWO)
    table: Dict[str, Tuple[Words, bytes, int, bytes, bytes]] = {
        "a session": (["--period", "10", activities], b"fix 1 0\ndomain 2\nx\n", 0, b"ok\n2: 4 5\nfault unknown command\n", b""),
        "a missing file": (["no such file"], b"", 1, b"", b"pespbench: activities file cannot be read\n"),
        "a long line": ([], b"cost\n" + b"x" * 4_097, 1, b"cost 0\n", b"pespbench: line 2 is longer than 4096 bytes\n"),
    }
    for name, (words, given, status, output, error) in table.items():
        come = run([START, "--module", *words], given=given, cwd=suite.folder)
        wanted = {"status": status, "standard output": output, "standard error": NOT_PROVED + error}
        suite.note(f"tools/pespbench --module: {name}", wanted, come)
        come = run([MODULE, *words], given=given, cwd=suite.folder)
        suite.note(f"tools/pespbench_module: {name}", {**wanted, "standard error": error}, come)
    shut = run(["sh", "-c", 'exec "$0" <&-', MODULE])
    suite.note("standard input closed", {"status": 1, "standard error": NOT_READ}, shut)
    told = f"pespbench {VERSION}, the page's module under Node, and not proved\n".encode()
    for words in [["--version"], ["-V", "none"]]:
        suite.note(f"the version by {words}", {"status": 0, "standard output": told, "standard error": b""}, run([MODULE, *words]))
    for word in ["--help", "--version"]:
        with open("/dev/full", "wb") as full:
            come = run([MODULE, word], stdout=full)
        suite.note(f"{word} on a full device", {"status": 1, "standard error": NOT_WRITTEN}, come)


def module_session(suite: Suite) -> None:
    """Line by line the replies are those of one whole run, whatever was searched and changed before."""
    draw = random.Random(5_601)
    for number in range(12):
        period = draw.randint(2, 12)
        lines = drawn_lines(draw, period, 60)
        words = [MODULE, "--period", str(period)]
        whole = run(words, given=b"\n".join(lines))["standard output"].decode().splitlines()
        with Dialogue(words) as talk:
            came = []
            for line in [line for line in lines if line.split() and not line.split()[0].startswith(b"#")]:
                talk.send(line + b"\n")
                came += talk.reply()
        suite.note(f"drawn session {number} at period {period}", {"replies": whole}, {"replies": came})


def module_kept(suite: Suite) -> None:
    """The lines that a session repeats do not grow with dropped events and activities."""
    come = run(["node", "-e", KEPT, TOP / "tools/module/kept.js"])
    suite.note("lines that are said again", {"status": 0, "standard output": b"0 0 10\n", "standard error": b""}, come)


def cases_of(suite: Suite) -> Iterator[Case]:
    """Rows, examples and the table of commands: the folder of each, its words, and its input."""
    activities, times = suite.file("two", TWO), suite.file("two times", TWO_TIMES)
    forms = [(name, text) for name in NAMES for text in (ACTIVITY_FORMS if name == "activities" else EVENT_FORMS).values()]
    faults = {"activities": ACTIVITY_FAULTS, "fixed": {**EVENT_FAULTS, **FIXED_FAULTS}, "times": EVENT_FAULTS}
    forms += [(name, text) for name in NAMES for text, _, _ in faults[name].values()]
    for number, (name, text) in enumerate(forms):
        others: List[object] = [] if name == "activities" else [activities]
        others += [] if name == "times" else ["--times", times]
        yield suite.folder, ["--check", "--period", "10", *words_for(name, suite.file(f"form {number}", text)), *others], b""
    for number, (_, period, rows, lines, _) in enumerate(CASES):
        yield suite.folder, ["--period", str(period), suite.file(f"case {number}", text_of(rows))], text_of(lines)
    for folder in folders():
        yield folder, words_of(folder), content(folder / "commands")
    yield suite.folder, ["--help"], b""


def streams_of(suite: Suite) -> Iterator[Case]:
    """Random streams: of lines alone, and in every fourth over random files."""
    draw = random.Random(5_602)
    for number in range(STREAMS):
        if number % 4:
            period = draw.randint(2, 12)
            yield suite.folder, ["--period", str(period)], b"\n".join(drawn_lines(draw, period, LINES))
        else:
            asked = drawn_run(draw)
            words = [word for name in NAMES for word in words_for(name, suite.file(f"{name} {number}", getattr(asked, name)))]
            yield suite.folder, ["--period", str(asked.period), *words], asked.commands


def same(suite: Suite, cases: Sequence[Case]) -> None:
    """Each case by the program and by the module."""

    def both(case: Case) -> Tuple[Came, Came]:
        folder, words, given = case
        wanted, came = (run([program, *words], given=given, cwd=folder) for program in (suite.program, MODULE))
        return wanted, came

    with ThreadPoolExecutor(AT_ONCE) as threads:
        for case, (wanted, came) in zip(cases, threads.map(both, cases)):
            suite.note(f"the module beside the program: {case[1]} {case[2][:200]!r}", wanted, came)


@within(300)
def module_rows(suite: Suite) -> None:
    same(suite, list(cases_of(suite)))


@within(900)
def module_streams(suite: Suite) -> None:
    same(suite, list(streams_of(suite)))


GROUPS = [module_start, module_session, module_kept, module_rows, module_streams]
