"""The subcommand `why`."""

from __future__ import annotations

import argparse

from pespbench.forms import add_form, in_form
from pespbench.opening import add_network, open_network, seconds, whole
from pespbench.terminal import tell
from pespbench.why.finding import why
from pespbench.why.telling import table_of, text_of
from pespbench.wording import Names


def add_parser(subparsers: argparse._SubParsersAction[argparse.ArgumentParser]) -> None:
    """Adds the subcommand's parser."""
    parser = subparsers.add_parser("why", help="why no timetable meets everything, and how to repair it")
    add_network(parser)
    parser.add_argument("--hard", metavar="KINDS", help="kinds that must not change, or '' for none [default: run,dwell,headway, beside others]")
    parser.add_argument("--lower", action="store_true", help="let repairs also lower the minimum minutes of activities")
    parser.add_argument("--nodes", type=whole, default=2_000, help="the nodes of each search of a part [default: 2000]")
    parser.add_argument("--seconds", type=some_seconds, default=10.0, help="about how long to search in all [default: 10]")
    add_form(parser)
    parser.set_defaults(run=run)


def some_seconds(text: str) -> float:
    """A time that is not 0. Raises ArgumentTypeError."""
    number = seconds(text)
    if not number:
        raise argparse.ArgumentTypeError("there is no answer in 0 seconds")
    return number


def run(words: argparse.Namespace) -> int:
    """Prints the answer."""
    with open_network(words) as bench:
        hard = None if words.hard is None else [kind for kind in map(str.strip, words.hard.split(",")) if kind]
        answer = why(bench, hard, words.nodes, words.seconds, words.lower)
        names = Names(bench.labels, bench.network.activities)
        tell(in_form(words.form, table_of(answer, names), text_of(answer, names)))
    return 0
