"""Replies one by one: each arrives before the next line is sent, through two pipes and at a terminal."""

import os
import pty
import random
import select
import subprocess
import time
from typing import Callable, Dict, List, Sequence

from tests import model
from tests.commands import model_of
from tests.file_cases import TWO
from tests.harness import SECONDS, Suite, patient, within
from tests.streams import drawn_lines, followed

NOTHING = "nothing in time"


class Dialogue:
    """A running program, which receives bytes and whose complete lines are read, each within a time."""

    def __init__(self, words: Sequence[object]) -> None:
        self.process = subprocess.Popen(list(map(str, words)), stdin=subprocess.PIPE, stdout=subprocess.PIPE, bufsize=0)
        assert self.process.stdin is not None and self.process.stdout is not None
        self.given, self.told = self.process.stdin, self.process.stdout
        self.held = b""
        self.patience = patient(SECONDS)

    def send(self, data: bytes) -> None:
        try:
            self.given.write(data)
        except BrokenPipeError:
            self.patience = 0

    def line(self) -> str:
        until = time.monotonic() + self.patience
        while b"\n" not in self.held:
            ready, _, _ = select.select([self.told], [], [], max(0, until - time.monotonic()))
            more = os.read(self.told.fileno(), 65_536) if ready else b""
            if not more:
                # Only one silence is awaited.
                self.patience = 0
                return NOTHING
            self.held += more
        line, _, self.held = self.held.partition(b"\n")
        return line.decode()

    def reply(self) -> List[str]:
        """The lines of one reply."""
        first = self.line()
        return [first, *(self.line() for _ in range(followed(first)))]

    def is_quiet(self) -> bool:
        """Whether nothing more comes for a moment."""
        return not self.held and not select.select([self.told], [], [], 0.05)[0]

    def end(self) -> Dict[str, object]:
        self.given.close()
        rest = self.told.read()
        self.told.close()
        return {"status": self.process.wait(patient(SECONDS)), "rest": self.held + rest}

    def __enter__(self) -> "Dialogue":
        return self

    def __exit__(self, *_: object) -> None:
        self.process.kill()
        self.process.wait()


ENDED = {"status": 0, "rest": b""}


def one_by_one(suite: Suite) -> None:
    text = b"domains/fix 1 0/domains/span 1 5 3//# a comment/drop event 1/optimum/adopt/cost/dump/x"
    lines = text.split(b"/")
    cuts: Dict[str, Callable[[bytes], int]] = {"in one piece": lambda _: 0, "in two pieces": lambda line: (len(line) + 1) // 2}
    for name, cut in cuts.items():
        bench = model_of(10, TWO)
        with Dialogue([suite.program, "--period", "10", suite.file("activities", TWO)]) as talk:
            for line in lines:
                place = cut(line)
                talk.send(line[:place])
                quiet = {"quiet": talk.is_quiet() if place else True}
                talk.send(line[place:] + b"\n")
                wanted = bench.reply(line)
                came = talk.reply() if wanted else []
                suite.note(f"{name}: {line!r}", {"reply": wanted, "quiet": True}, {"reply": came, **quiet})
                if NOTHING in came:
                    return
            suite.note(f"{name}: the end", ENDED, talk.end())


def two_lines_in_one_piece(suite: Suite) -> None:
    with Dialogue([suite.program]) as talk:
        talk.send(b"cost\nadd event 1\nco")
        came = [talk.line(), talk.line()]
        quiet = talk.is_quiet()
        talk.send(b"st\n")
        came.append(talk.line())
        wanted = ["cost 0", "ok", "refused 11 event 1 has no time"]
        suite.note("two lines and a half in one piece", {"replies": wanted}, {"replies": came})
        suite.holds("half a line has no reply", quiet)
        talk.send(b"dump")
        suite.holds("a line without its line feed has no reply yet", talk.is_quiet())
        script = b"# period 60 lines 1\nadd event 1\n"
        suite.note("the end of the stream ends the last line", {"status": 0, "rest": script}, talk.end())


def drawn_dialogue(suite: Suite) -> None:
    """A few hundred random lines, each with its complete reply before the next is sent."""
    draw = random.Random(1830)
    bench = model.Model(7)
    with Dialogue([suite.program, "--period", "7"]) as talk:
        for line in drawn_lines(draw, 7, 300):
            wanted = bench.reply(line)
            is_try = wanted and line.split()[:1] == [b"try"]
            talk.send(line + b"\n")
            came = talk.reply() if wanted else []
            if is_try and came != wanted:
                wanted = came if bench.may_try(int(line.split()[1]), came) else wanted
            suite.note(f"drawn dialogue: {line!r}", {"reply": wanted}, {"reply": came})
            if NOTHING in came:
                return
        suite.note("drawn dialogue: the end", ENDED, talk.end())


@within(240)
def long_dialogue(suite: Suite) -> None:
    """Thousands of replies one by one, as an optimiser requests them."""
    with Dialogue([suite.program]) as talk:
        talk.send(b"add event 1\n")
        right = talk.line() == "ok"
        for turn in range(5_000):
            talk.send(b"fix 1 %d\n" % (turn % 60))
            right = right and talk.line() == "ok"
        suite.holds("5,000 edits one by one", right)
        talk.send(b"dump\n")
        wanted = ["# period 60 lines 2", "add event 1", "fix 1 19"]
        suite.note("what is left of them", {"reply": wanted}, {"reply": talk.reply()})
        suite.note("the end of them", ENDED, talk.end())


def terminal(suite: Suite) -> None:
    """A person types: the end of input at the start of a line ends the program at once."""
    master, slave = pty.openpty()
    process = subprocess.Popen([suite.program], stdin=slave, stdout=subprocess.PIPE, bufsize=0)
    assert process.stdout is not None
    os.close(slave)
    os.write(master, b"cost\n")
    ready = select.select([process.stdout], [], [], patient(SECONDS))[0]
    came = os.read(process.stdout.fileno(), 100) if ready else b""
    suite.note("a typed line", {"reply": b"cost 0\n"}, {"reply": came})
    os.write(master, b"\x04")
    try:
        status: object = process.wait(patient(SECONDS))
    except subprocess.TimeoutExpired:
        process.kill()
        status = process.wait() and "still running"
    suite.note("one end of input ends the program", {"status": 0}, {"status": status})
    process.stdout.close()
    os.close(master)


GROUPS = [one_by_one, two_lines_in_one_piece, drawn_dialogue, long_dialogue, terminal]
