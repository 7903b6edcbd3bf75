"""The files of the examples, and their commands, cut at each byte, and with each byte changed to ten others; of a long period each eighth."""

import dataclasses
import pathlib
import re
import shutil
import tempfile
from itertools import islice
from typing import Dict, Iterator, List, Optional, Tuple

from hostile.inputs import Input, ends_of_replies, has_reply
from hostile.served import Came, Served
from hostile.suite import Suite, Wrong
from tests import rules
from tests.harness import NAMES, TOP

OTHERS = [bytes([byte]) for byte in b';,"#-9a\n \0\xff']
OTHERS_OF_A_BYTE = 10

FILE_FAULT = re.compile(
    rb"pespbench: (activities|fixed|times) file, record \d+: (wrong number of fields"
    rb"|field [1-6] is (not a number|out of range)|weight has a fraction|lower bound above upper bound"
    rb"|activity number is repeated|event is repeated|event is not in the instance)\n"
)
REPLY_LINE = re.compile(
    rb"ok|infeasible|stopped none|cost \d+|(domains|tensions|violations) \d+|(optimum|stopped) \d+ \d+"
    rb"|(activity|event) \d+|\d+:( \d+)*|\d+ -?\d+ \d+|\d+ \d+"
    rb"|# period \d+ lines \d+|add event \d+|fix \d+ \d+|window \d+ \d+ \d+|add activity \d+ \d+ \d+ -?\d+ -?\d+ \d+"
    rb"|refused (1 event \d+ exists|2 no event \d+|3 event \d+ is used by activity \d+|4 time \d+ is out of range"
    rb"|5 activity \d+ exists|6 no activity \d+|9 event \d+ is not fixed|11 event \d+ has no time|12 infeasible"
    rb"|13 length \d+ is out of range)"
    rb"|fault (unknown command|wrong number of words|word [1-9] is (not a number|out of range)"
    rb"|lower bound above upper bound)"
)


def damaged(text: bytes) -> Iterator[Tuple[str, bytes]]:
    """Each damaged text, truncated or with one byte changed, and its description."""
    for place in range(len(text)):
        yield f"cut at byte {place}", text[:place]
    for place in range(len(text)):
        here = text[place : place + 1]
        for other in [byte for byte in OTHERS if byte != here][:OTHERS_OF_A_BYTE]:
            yield f"byte {place} as {other!r}", text[:place] + other + text[place + 1 :]


def is_answered(given: bytes, output: bytes) -> bool:
    """Whether the output has a complete reply for each line of commands that has one, and nothing else."""
    lines = output.split(b"\n")
    if lines.pop() or not all(REPLY_LINE.fullmatch(line) for line in lines):
        return False
    try:
        ends = ends_of_replies(given, output)
    except ValueError:
        return False
    went = [after > before for before, after in zip(ends, ends[1:])]
    return ends[-1] == len(output) and went == [has_reply(line) for line in given.split(b"\n")]


def fault_of_commands(given: bytes, came: Came) -> Optional[str]:
    """The fault of a run over commands, if any."""
    if came.status == 0 and came.error == b"":
        return None if is_answered(given, came.output) else "replies that are none"
    is_fault = came.status == 1 and FILE_FAULT.fullmatch(came.error) and came.output == b""
    return None if is_fault else "neither replies nor a fault of a file"


class Damage:
    """One example whose files are in a folder of their own, to be damaged and restored."""

    def __init__(self, given: Input, served: Served) -> None:
        self.given, self.served = given, served
        self.texts = {name: self.path(name).read_bytes() for name in NAMES if self.path(name).exists()}
        words = given.words
        self.period = int(words[words.index("--period") + 1]) if "--period" in words else 60
        # A run at a period of a day takes some thirty times as long as one at an hour.
        self.step = 8 if self.period > 255 else 1

    def path(self, name: str) -> pathlib.Path:
        return self.given.folder / name

    def judge(self, texts: Dict[str, bytes], commands: bytes, came: Came) -> Optional[str]:
        if not self.given.is_check():
            return fault_of_commands(commands, came)
        wanted = rules.check(self.period, **texts)
        same = came.told() == (wanted["status"], wanted["output"], wanted["error"])
        return None if same else f"not what the rules say: {wanted}"

    def twice(self, name: str, texts: Dict[str, bytes], commands: bytes) -> List[Wrong]:
        came = self.served.run()
        fault = self.judge(texts, commands, came)
        if not fault and self.served.run().told() != came.told():
            fault = "something else on a second run"
        return [(name, fault, came)] if fault else []

    def files(self, name: str) -> Tuple[int, List[Wrong]]:
        """The number of damaged texts of a file, and their faults."""
        tried = 0
        wrong: List[Wrong] = []
        with open(self.path(name), "r+b", buffering=0) as file:
            for done, text in islice(damaged(self.texts[name]), 0, None, self.step):
                file.seek(0)
                file.truncate()
                file.write(text)
                wrong += self.twice(done, {**self.texts, name: text}, self.given.given)
                tried += 1
        self.path(name).write_bytes(self.texts[name])
        return tried, wrong

    def commands(self) -> Tuple[int, List[Wrong]]:
        tried = 0
        wrong: List[Wrong] = []
        for done, text in islice(damaged(self.given.given), 0, None, self.step):
            self.served.give(text)
            wrong += self.twice(done, self.texts, text)
            tried += 1
        self.served.give(self.given.given)
        return tried, wrong


def own_copy(given: Input, folder: pathlib.Path) -> Input:
    """The example in a copy of examples/, since it may read the files of another one."""
    shutil.copytree(TOP / "examples", folder / "examples")
    return dataclasses.replace(given, folder=folder / "examples" / given.folder.name)


def damage(suite: Suite, given: Input) -> None:
    with tempfile.TemporaryDirectory() as name:
        damage_copy(suite, own_copy(given, pathlib.Path(name)))


def damage_copy(suite: Suite, given: Input) -> None:
    with Served(suite.library, [suite.program, *given.words], given.folder, given.given) as served:
        example = Damage(given, served)
        for name in example.texts:
            suite.found(f"{given.name}: damaged {name}", *example.files(name))
        if given.given:
            suite.found(f"{given.name}: damaged commands", *example.commands())
