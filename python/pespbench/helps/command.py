"""The subcommand `helps`."""

from __future__ import annotations

import argparse
from typing import Optional

from pespbench.client import Bench
from pespbench.ending import INTERRUPTS, status_of, uninterrupted
from pespbench.faults import PespbenchError
from pespbench.forms import add_form, in_form
from pespbench.helps.answers import Helps
from pespbench.helps.asking import helps
from pespbench.helps.telling import table_of, text_of
from pespbench.opening import add_network, open_network, seconds, whole
from pespbench.terminal import tell
from pespbench.wording import Names
from pespbench.workers import Bar


def add_parser(subparsers: "argparse._SubParsersAction[argparse.ArgumentParser]") -> None:
    """Adds the subcommand's parser."""
    parser = subparsers.add_parser("helps", help="which activity would save most with one more minute")
    add_network(parser)
    parser.add_argument("--kinds", metavar="KINDS", help="kinds that may change, such as change,turnaround [default: all but run,dwell,headway]")
    parser.add_argument("--minutes", type=some_minutes, default=1, help="how many more; below 0, by how many minimums are lowered [default: 1]")
    parser.add_argument("--seconds", type=seconds, default=60.0, help="how long to search [default: 60]")
    parser.add_argument("--workers", type=whole, help="the number of programs in parallel [default: one for each processor]")
    add_form(parser)
    parser.set_defaults(run=run)


def some_minutes(text: str) -> int:
    """A whole number other than 0. Raises ArgumentTypeError."""
    try:
        number = int(text)
    except ValueError:
        number = 0
    if not number:
        raise argparse.ArgumentTypeError(f"it is a whole number other than 0, and not {text!r}")
    return number


class Latest:
    """The results so far, with a progress bar."""

    def __init__(self) -> None:
        self.answer: Optional[Helps] = None
        self._bar: Optional[Bar] = None

    def __call__(self, answer: Helps) -> None:
        self.answer = answer
        if self._bar is None:
            self._bar = Bar(answer.asked)
        else:
            self._bar.step()

    def end(self) -> None:
        """No more questions follow."""
        if self._bar is not None:
            self._bar.end()


def run(words: argparse.Namespace) -> int:
    """Prints what would help. Raises what ended it early, after printing the results so far; for an interrupt the
    status reports it.
    """
    latest = Latest()
    with open_network(words) as bench:
        ended = asked(bench, words, latest)
        with uninterrupted():
            latest.end()
            if latest.answer is not None:
                names = Names(bench.labels, bench.network.activities)
                tell(in_form(words.form, table_of(latest.answer, names), text_of(latest.answer, names)))
    if isinstance(ended, PespbenchError):
        raise ended
    return 0 if ended is None else status_of(ended)


def asked(bench: Bench, words: argparse.Namespace, latest: Latest) -> Optional[BaseException]:
    """Computes the answer, and returns what ended it early."""
    kinds = None if words.kinds is None else [kind for kind in map(str.strip, words.kinds.split(",")) if kind]
    try:
        helps(bench, kinds, minutes=words.minutes, seconds=words.seconds, workers=words.workers, watch=latest)
    except (*INTERRUPTS, PespbenchError) as ended:
        return ended
    return None
