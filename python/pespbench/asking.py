"""`ask`: commands with the program's answers, as JSON or as CSV."""

from __future__ import annotations

import argparse
import sys
from typing import Iterable, Iterator, Optional

from pespbench.client import Bench
from pespbench.faults import Fault, Refused
from pespbench.forms import add_form, in_form, table_of
from pespbench.opening import add_network, open_network
from pespbench.replies import text_of
from pespbench.terminal import tell


def add_parser(subparsers: "argparse._SubParsersAction[argparse.ArgumentParser]") -> None:
    """Adds the subcommand."""
    parser = subparsers.add_parser("ask", help="answer commands, also as JSON or CSV")
    add_network(parser)
    told = "a command of the program, such as `domain 2`; may be repeated [default: lines of standard input]"
    parser.add_argument("-c", "--command", dest="commands", action="append", metavar="COMMAND", help=told)
    add_form(parser)
    parser.set_defaults(run=run)


def run(words: argparse.Namespace) -> int:
    """Writes each answer as it comes; the status is 1 if one was a refusal or a fault."""
    with open_network(words) as bench:
        refused = [command for command in asked(words.commands or sys.stdin) if not is_accepted(bench, command, words.form)]
    return 1 if refused else 0


def asked(lines: Iterable[str]) -> Iterator[str]:
    """The lines that have an answer."""
    return (line for line in map(str.strip, lines) if line and not line.startswith("#"))


def is_accepted(bench: Bench, command: str, form: Optional[str]) -> bool:
    """Prints the answer to a command, a table with a blank line below it; whether it is neither a refusal nor a fault."""
    [outcome] = bench.many([command])
    tell(in_form(form, table_of(outcome, command), text_of(command, outcome)) + ("\n" if form == "csv" else ""))
    return not isinstance(outcome, (Refused, Fault))
