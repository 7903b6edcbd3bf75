"""The tests of the library in process: random streams under each instrument, wrong libraries, and the callers."""

import argparse
import random
import re
import tempfile
from concurrent.futures import ThreadPoolExecutor
from pathlib import Path
from typing import Callable, Collection, Dict, Iterator, List, NamedTuple, Sequence, Tuple

from hostile.in_process import callers
from hostile.in_process.building import HERE, MEMCHECK, WAYS, Caller, has_prices, library_for, made_caller
from hostile.in_process.judged import OF_PRICES, WRONG
from hostile.in_process.playing import Counts, Player
from tests.embedded import answering
from tests.harness import Suite

# The number of streams of a thread that one start of the caller plays.
STREAMS_AT_ONCE = 100
# One stream is played for this many others: memcheck is some thirty times as slow as a sanitizer, and threads play two at once.
ONE_OF = {"sanitizers": 1, "threads": 5, "memcheck": 25}
# The number of streams in which a wrong library must be found.
TRIALS, STREAMS_OF_A_TRIAL = 20, 8
WRAPPED = [f"-Wl,--wrap={name}" for name in ("pesp_ask", "pesp_search", "pesp_price", "pesp_price_tension")]


class Task(NamedTuple):
    """A part, its number, and how many streams it plays in each thread."""

    part: str
    number: int
    streams: int


class Result(NamedTuple):
    """The amount of work, the number of passed cases, and the faults."""

    counts: Counts
    passed: int
    faults: List[str]


class Making:
    """The compiled callers and libraries, in a folder that all tasks read."""

    def __init__(self, words: argparse.Namespace, folder: Path) -> None:
        self.words, self.folder = words, folder
        self.callers: Dict[str, Caller] = {}
        self.wrong: Dict[str, Caller] = {}
        self.libraries: Dict[str, List[Path]] = {}

    def make_libraries(self, parts: Sequence[str], missing: Collection[str]) -> None:
        """Builds the library for each instrument that the parts need, in parallel."""
        ways = sorted({way for part in parts for way in ways_of(part)} - set(missing))
        with ThreadPoolExecutor() as threads:
            made = threads.map(lambda way: library_for(self.folder, way, self.words.library), ways)
            self.libraries = dict(zip(ways, made))

    def have_prices(self) -> bool:
        return all(map(has_prices, self.libraries.values()))

    def make_callers(self, part: str) -> None:
        """Builds what a part needs besides the library."""
        for way in set(ways_of(part)) & set(self.libraries):
            if part in WAYS:
                self.callers[way] = made_caller(self.folder, way, self.libraries[way])
            if part == "judges":
                self.wrong[way] = made_caller(self.folder, way, self.libraries[way], [HERE / "wrong.c", *WRAPPED], "wrong")


def ways_of(part: str) -> List[str]:
    """The instruments that a part needs."""
    return [part] if part in WAYS else list(WAYS) if part == "judges" else ["sanitizers"]


def tasks(part: str, streams: int) -> Iterator[Task]:
    """The tasks of a part, each for a process; the longest come first."""
    if part not in WAYS:
        yield from (Task(part, number, 0) for number in (WRONG if part == "judges" else range(len(callers.LANGUAGES))))
        return
    left = -(-streams // (ONE_OF[part] * WAYS[part].threads))
    at_once = min(STREAMS_AT_ONCE, -(-left // 4))
    for number in range(-(-left // at_once)):
        yield Task(part, number, min(at_once, left - number * at_once))


def play(making: Making, task: Task) -> Result:
    """Streams of a task, generated from the seed, the part and the number."""
    draw = random.Random(f"{making.words.seed} {task.part} {task.number}")
    with tempfile.TemporaryDirectory() as name:
        player = Player(making.words.program, making.callers[task.part], answering(), Path(name))
        counts, faults = player.play(draw, task.streams, task.number == 0)
    return Result(counts, 1 - bool(faults), [f"FAILED {task.part} {task.number} of seed {making.words.seed}: {fault}" for fault in faults[:5]])


def judges(making: Making, task: Task) -> Result:
    """A wrong library is found by each instrument that can find it, with the expected words."""
    title, ways, word = WRONG[task.number]
    tried = [way for way in ways.split() if way in making.wrong and (making.wrong[way].has_prices or task.number not in OF_PRICES)]
    missed = [way for way in tried if not is_found(making, making.wrong[way], task.number, word)]
    return Result(Counts(), len(tried) - len(missed), [f"FAILED judges: {title}, and {way} does not find it" for way in missed])


def is_found(making: Making, caller: Caller, number: int, word: str) -> bool:
    caller = caller._replace(env={**caller.env, "WRONG": str(number)})
    draw = random.Random(number)
    for _ in range(TRIALS):
        with tempfile.TemporaryDirectory() as name:
            _, faults = Player(making.words.program, caller, answering(), Path(name)).play(draw, STREAMS_OF_A_TRIAL)
        if faults:
            return any(re.search(word, fault) for fault in faults)
    return False


def call(making: Making, task: Task) -> Result:
    """A caller of embedded/, over the instrumented library."""
    with tempfile.TemporaryDirectory() as name:
        suite = Suite(making.words.program, Path(name), Path(name) / "tally")
        passed, faults = callers.try_language(suite, list(callers.LANGUAGES)[task.number], making.libraries["sanitizers"])
    return Result(Counts(), passed, faults)


PARTS: Dict[str, Callable[[Making, Task], Result]] = {"callers": call, "judges": judges, **{way: play for way in WAYS}}
ADDRESSES, RACES = ("libasan.so", "no AddressSanitizer (libasan, of gcc)"), ("libtsan.so", "no ThreadSanitizer (libtsan, of gcc)")
# A command or a library of the compiler without which a part cannot run.
WANTED: Dict[str, Tuple[str, str]] = {
    "sanitizers": ADDRESSES, "callers": ADDRESSES, "threads": RACES, "memcheck": (MEMCHECK[0], "no memcheck (valgrind)"),
}


def described(task: Task, result: Result) -> str:
    """A line of a task."""
    played = f": {result.counts.told()}" if result.counts.calls else ""
    return f"{task.part} {task.number}: {result.passed} passed, {len(result.faults)} failed{played}"
