"""Plays random streams: by the caller over the library, and by the program, whose replies judge the calls."""

import random
from pathlib import Path
from types import ModuleType
from typing import Iterator, List, NamedTuple, Sequence, Tuple

from hostile.in_process import orders
from hostile.in_process.building import Caller
from hostile.in_process.drawing import LONG, SHORT, SLOTS, Kind, Stream, drawn_stream, merged
from hostile.in_process.judging import Judged
from hostile.in_process.orders import Call, Order, calls_of
from hostile.in_process.searched import emptying, fault_of_search, lines_of_search
from hostile.in_process.wanted import Check
from hostile.inputs import ends_of_replies
from tests.harness import NAMES, Came, run

# One long period counts as this many short ones.
SHORT_TO_LONG = 12
EXCHANGES = 5
SECONDS = 1_200


class Counts(NamedTuple):
    """The amount of work: streams, opened sessions, calls, memory requests, and those refused."""

    streams: int = 0
    sessions: int = 0
    calls: int = 0
    requests: int = 0
    refused: int = 0

    def and_those(self, other: "Counts") -> "Counts":
        return Counts(*(mine + its for mine, its in zip(self, other)))

    def told(self) -> str:
        return ", ".join(f"{number:,} {name}" for name, number in self._asdict().items())


class Script(NamedTuple):
    """The orders of a thread, and their streams, by slots."""

    streams: List[List[Stream]]
    orders: List[Order]


def period_drawn(draw: random.Random) -> int:
    return draw.choice(SHORT) if draw.randrange(SHORT_TO_LONG) else draw.choice(LONG)


def drawn_script(draw: random.Random, period: int, count: int, kind: Kind) -> Script:
    """This many streams, some at once and then others, each in a slot of its own; only the first has every call."""
    together = [
        [drawn_stream(draw, period, slot, kind if first + slot == 0 else kind._replace(is_whole=False)) for slot in range(min(SLOTS, count - first))]
        for first in range(0, count, SLOTS)
    ]
    return Script(together, [order for streams in together for order in merged(draw, streams)])


def with_exchanges(draw: random.Random, script: Script) -> Script:
    """The same with places at which two threads exchange their sessions."""
    exchanged = list(script.orders)
    for _ in range(EXCHANGES):
        exchanged.insert(draw.randrange(len(exchanged) + 1), Order(orders.EXCHANGE))
    return Script(script.streams, exchanged)


def carried_out(caller: Caller, folder: Path, scripts: Sequence[Script]) -> Tuple[Came, List[bytes]]:
    """The caller's last line, and its answers to each script."""
    paths = [(folder / f"script-{number}", folder / f"answers-{number}") for number, _ in enumerate(scripts)]
    for script, (path, answers) in zip(scripts, paths):
        path.write_bytes(b"".join(order.packed() for order in script.orders))
        answers.write_bytes(b"")
    came = run([*caller.words, *(path for pair in paths for path in pair)], env=caller.env, seconds=SECONDS)
    return came, [answers.read_bytes() for _, answers in paths]


def calls_by_stream(script: Script, calls: Sequence[Call]) -> Iterator[Tuple[Stream, List[Call]]]:
    """The calls of each stream; those without an answer, if the caller stopped early, are omitted."""
    rest = list(calls)
    for together in script.streams:
        count = sum(order.kind not in orders.WITHOUT_ANSWER for stream in together for order in stream.orders)
        these, rest = rest[:count], rest[count:]
        for slot, stream in enumerate(together):
            yield stream, [call for call in these if call.order.slot == slot]


class Player:
    """The program and the caller, and a folder for files."""

    def __init__(self, program: Path, caller: Caller, module: ModuleType, folder: Path) -> None:
        self.program, self.caller, self.module, self.folder = program, caller, module, folder

    def play(self, draw: random.Random, count: int, is_whole: bool = False) -> Tuple[Counts, List[str]]:
        """Plays this many streams of a period in each thread, with every call if it is complete: the amount of work, and the
        faults."""
        # At a long period there are no searches.
        period = draw.choice(SHORT) if is_whole else period_drawn(draw)
        kind = Kind(self.caller.has_prices, is_whole)
        scripts = [drawn_script(draw, period, count, kind) for _ in range(self.caller.threads)]
        if self.caller.threads > 1 and draw.randrange(2):
            scripts = [with_exchanges(draw, scripts[0])] * self.caller.threads
        came, outputs = carried_out(self.caller, self.folder, scripts)
        faults = self.faults_of_end(came, scripts, outputs)
        opened = 0
        for script, output in zip(scripts, outputs):
            calls = calls_of(script.orders, output)
            opened += sum(call.order.kind == orders.OPEN and call.last.status() == orders.DONE for call in calls)
            # If the caller stopped early, the networks that it left are unknown.
            faults += [] if came["status"] else self.faults_of(script, calls, period)
        _, calls_made, requests, refused = [int(word) for word in came["standard output"].split()] or [0, 0, 0, 0]
        return Counts(count * len(scripts), opened, calls_made, requests, refused), faults

    def faults_of_end(self, came: Came, scripts: Sequence[Script], outputs: Sequence[bytes]) -> List[str]:
        """The fault of the caller's end, if any, and where that was."""
        if came["status"] == 0 and not came["standard error"] and came["standard output"].split()[:1] == [b"0"]:
            return []
        text = came["standard error"].decode(errors="replace")
        places = [len(calls_of(script.orders, output)) for script, output in zip(scripts, outputs)]
        return [f"the caller ended with {came['status']}, {came['standard output']!r}, after {places} calls: {text[:3_000]}"]

    def faults_of(self, script: Script, calls: Sequence[Call], period: int) -> List[str]:
        judged: List[Judged] = []
        faults: List[str] = []
        for stream, its_calls in calls_by_stream(script, calls):
            judge = Judged(stream, self.module)
            for call in its_calls:
                judge.add(call)
                faults += self.faults_of_run(call) if call.order.kind == orders.RUN else []
            if stream.has_files():
                faults += self.faults_of_lines([judge], stream) + self.faults_of_searches([judge], stream.period)
            else:
                judged.append(judge)
        return faults + self.faults_of_lines(judged, Stream(period, [], [])) + self.faults_of_searches(judged, period)

    def words_of(self, stream: Stream) -> List[object]:
        """Writes the files of a stream, and returns the program's arguments for them."""
        words: List[object] = [self.program, "--period", stream.period]
        for name, text in zip(NAMES, stream.files):
            (self.folder / name).write_bytes(text)
            words += [f"--{name}", self.folder / name] if name != NAMES[0] else [self.folder / name]
        return words

    def faults_of_run(self, call: Call) -> List[str]:
        """The difference of a whole run in memory from the program."""
        *files, commands = call.order.texts
        came = run(self.words_of(Stream(call.order.first, files, [])), given=commands, seconds=SECONDS)
        replies, fault = came["standard output"], self.module.fault_of(self.module.Told(*call.last.told)) or ""
        is_same = call.last.told[0] == len(replies) and call.last.shown == replies[: call.order.room] and fault == fault_told(came)
        return [] if is_same else [f"a whole run of {call.order.texts!r:.2000} told {call.last.told}, the program {came}"]

    def faults_of_lines(self, judged: Sequence[Judged], opened: Stream) -> List[str]:
        """The faults of streams, one after the other in one run of the program; if that has a fault of a file, of the session that
        has it too."""
        checks: List[Check] = []
        for judge in judged:
            checks += [*judge.checks, Check(emptying(judge.script), lambda _: None)]
        fault, replies = self.replies(self.words_of(opened), [line for check in checks for line in check.lines])
        if fault and not (opened.has_files() and len(judged) == 1 and not any(check.lines for check in checks)):
            return [f"the program ends with {fault!r}"]
        for judge in judged:
            judge.opening_fault = fault
        faults: List[str] = []
        for check in checks:
            these, replies = replies[: len(check.lines)], replies[len(check.lines) :]
            faults += filter(None, [check.judge(these)])
        return faults

    def replies(self, words: Sequence[object], lines: Sequence[bytes]) -> Tuple[str, List[bytes]]:
        """The program's fault, or its reply to each line."""
        given = b"\n".join(lines)
        came = run(words, given=given, seconds=SECONDS)
        if came["status"] != 0 or came["standard error"]:
            return fault_told(came) or f"status {came['status']}", []
        ends = ends_of_replies(given, came["standard output"])
        return "", [came["standard output"][start:end] for start, end in zip(ends, ends[1:])]

    def faults_of_searches(self, judged: Sequence[Judged], period: int) -> List[str]:
        """The program judges, on the same network, a search that has several possible results."""
        searched = [each for judge in judged for each in judge.searched]
        lines = [line for each in searched for line in lines_of_search(each)]
        fault, replies = self.replies([self.program, "--period", period], lines) if lines else ("", [])
        if fault:
            return [f"the program ends with {fault!r} after searches"]
        faults: List[str] = []
        for each in searched:
            count, after = len(lines_of_search(each)), len(emptying(each.script))
            these, replies = replies[:count], replies[count:]
            faults += filter(None, [fault_of_search(each, *these[count - after - 3 : count - after])])
        return faults


def fault_told(came: Came) -> str:
    return came["standard error"].decode().removeprefix("pespbench: ").removesuffix("\n")
