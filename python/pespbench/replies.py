"""The program's replies, parsed into answers (docs/FORMATS.md, *From a program*)."""

from __future__ import annotations

import re
from typing import Dict, Iterator, List, Optional, Sequence, Union

from pespbench.answers import Answer, Domain, Infeasible, Optimum, Stopped, Tension, Violations
from pespbench.commands import CHANGES, name_of
from pespbench.faults import BadReply, Fault, Refused

# The first words of replies to queries; each command can also be refused or be a fault, and changes are answered by `ok`.
BEGINNINGS = {
    "domains": {"domains"}, "tensions": {"tensions"}, "violations": {"violations"}, "cost": {"cost"}, "dump": {"#"},
    "optimum": {"optimum", "infeasible"}, "try": {"optimum", "infeasible", "stopped"}, "adopt": {"ok"},
    **dict.fromkeys(CHANGES, {"ok"}),
}  # fmt: skip
# The word of the first line with the number of lines that follow, and the limit of that number.
COUNT_PLACES = {"domains": 1, "tensions": 1, "violations": 1, "optimum": 2, "stopped": 2, "#": 4}
MOST_ROWS = {"domains": 20_000, "tensions": 100_000, "violations": 120_000, "optimum": 20_000, "stopped": 20_000, "#": 140_000}
# The limits in bytes of a line and of a reply: those of domains are longest, of 1,440 minutes, and of 2,400,000 in all.
LONGEST_LINE, LONGEST_REPLY = 8_192, 16_777_216


def following(first: str) -> int:
    """The number of lines that follow the first line of a reply. Raises BadReply if the line does not give it."""
    words = first.split()
    if not words:
        raise BadReply(first)
    if words[0] not in COUNT_PLACES or words == ["stopped", "none"]:
        return 0
    place = COUNT_PLACES[words[0]]
    if place >= len(words) or not re.fullmatch("[0-9]{1,7}", words[place]) or int(words[place]) > MOST_ROWS[words[0]]:
        raise BadReply(first)
    return int(words[place])


class Assembler:
    """Assembles the bytes of a stream into replies, each a list of lines."""

    def __init__(self) -> None:
        self._held = b""
        self._lines: List[str] = []
        self._wanted, self._length = 1, 0

    def feed(self, data: bytes) -> Iterator[List[str]]:
        """Accepts bytes, and yields each reply that they complete.

        Raises BadReply for an invalid first line, and for more than a reply can contain.
        """
        *whole, self._held = (self._held + data).split(b"\n")
        for line in whole:
            self._lines.append(self._text(line))
            if len(self._lines) == 1:
                self._wanted = 1 + following(self._lines[0])
            if len(self._lines) == self._wanted:
                reply, self._lines, self._length = self._lines, [], 0
                yield reply
        if len(self._held) > LONGEST_LINE:
            raise BadReply(self._held[:LONGEST_LINE].decode(errors="replace"))

    def _text(self, line: bytes) -> str:
        """A line. Raises BadReply for a character that no reply contains, and for too many."""
        self._length += len(line) + 1
        text = line[: LONGEST_LINE + 1].decode(errors="replace")
        if len(line) > LONGEST_LINE or self._length > LONGEST_REPLY or not line.isascii() or b"_" in line:
            raise BadReply(text)
        return text

    def is_within_reply(self) -> bool:
        """Whether part of a reply has arrived."""
        return bool(self._held or self._lines)


def replies_of(text: str) -> Iterator[List[str]]:
    """The replies in a text, each a list of lines. Raises BadReply for an invalid first line, or an incomplete last reply."""
    assembler = Assembler()
    yield from assembler.feed(text.encode() if not text or text.endswith("\n") else f"{text}\n".encode())
    if assembler.is_within_reply():
        raise BadReply("the last reply is not whole")


def is_reply_to(command: str, reply: Sequence[str]) -> bool:
    """Whether a command can have this reply; an unknown command can have any."""
    first, name = reply[0].split()[0], name_of(command)
    if first in ("refused", "fault"):
        return True
    if name == "domain":
        return [f"{int(number)}:" for number in command.split()[1:] if number.lstrip("+").isdecimal()] == [first]
    return name not in BEGINNINGS or first in BEGINNINGS[name]


def answer_of(reply: Sequence[str]) -> Answer:
    """The answer in a reply; `ok` is None. Raises Refused or Fault for such a reply, BadReply for any other text."""
    words = reply[0].split()
    try:
        if words[0] == "refused":
            raise Refused(int(words[1]), _named("event", reply[0]), _named("activity", reply[0]), reply[0])
        if words[0] == "fault":
            raise Fault(_named("word", reply[0]), reply[0])
        return _answer(words, reply)
    except (ValueError, IndexError, KeyError):
        raise BadReply(reply[0]) from None


def _named(what: str, text: str) -> Optional[int]:
    found = re.search(rf"\b{what} ([0-9]{{1,9}})\b", text)
    return int(found[1]) if found else None


def _answer(words: List[str], reply: Sequence[str]) -> Answer:
    """The answer in a reply other than `refused` and `fault`. Raises ValueError, IndexError and KeyError for any other text."""
    name, rows = words[0], reply[1:]
    if name == "ok" or name == "infeasible":
        return None if name == "ok" else Infeasible()
    if name == "cost":
        return int(words[1])
    if name == "#":
        return "".join(f"{line}\n" for line in reply)
    if name == "domains":
        return {domain.event: domain for domain in map(_domain, rows)}
    if name.endswith(":"):
        return _domain(reply[0])
    if name == "tensions":
        return {each.activity: each for each in (Tension(*map(int, row.split())) for row in rows)}
    if name == "violations":
        named = [row.split() for row in rows]
        kinds = {kind: tuple(int(number) for word, number in named if word == kind) for kind in ("activity", "event")}
        return Violations(kinds["activity"], kinds["event"])
    if name == "optimum":
        return Optimum(int(words[1]), _times(rows))
    if name == "stopped":
        return Stopped() if words[1] == "none" else Stopped(int(words[1]), _times(rows))
    raise ValueError(name)


def text_of(command: str, outcome: Union[Answer, Refused, Fault]) -> str:
    """The reply to a command that has this outcome."""
    name = command.split()[0]
    if isinstance(outcome, (Refused, Fault)):
        return f"{outcome}\n"
    if outcome is None or name == "adopt":
        return "ok\n"
    if isinstance(outcome, int):
        return f"cost {outcome}\n"
    if isinstance(outcome, str):
        return outcome
    if isinstance(outcome, dict):
        return "".join(f"{line}\n" for line in [f"{name} {len(outcome)}", *(each.text() for each in outcome.values())])
    return f"{outcome.text()}\n" if isinstance(outcome, Domain) else outcome.text()


def _domain(line: str) -> Domain:
    event, _, residues = line.partition(":")
    return Domain(int(event), tuple(map(int, residues.split())))


def _times(rows: Sequence[str]) -> Dict[int, int]:
    pairs = [row.split() for row in rows]
    return {int(event): int(time) for event, time in pairs}
