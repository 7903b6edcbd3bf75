"""`python3 -m pespbench SUBCOMMAND ..`: each module below has a function `add_parser(subparsers)`.

It adds its parser and sets by `set_defaults(run=..)` what runs; `run(words)` returns the exit status.
"""

from __future__ import annotations

import argparse
import sys
from importlib import import_module
from typing import List, NoReturn, Optional

from pespbench.ending import INTERRUPTS, status_of, terminated
from pespbench.faults import PespbenchError, WrongWords, text_of
from pespbench.leaving import leave_at_interrupts, raise_interrupts
from pespbench.terminal import complain, shown
from pespbench.version import VERSION

MODULES = ["shell", "asking", "search", "mend", "why", "helps", "report", "compare", "lintim", "gtfs", "models", "drawn"]


class Parser(argparse.ArgumentParser):
    """A parser whose error messages cannot steer a terminal."""

    def error(self, message: str) -> NoReturn:
        """Reports the error, and exits with status 2."""
        super().error(shown(message))


def describe(subparsers: "argparse._SubParsersAction[Parser]") -> None:
    """Starts the help of each subcommand with its line in the list of subcommands."""
    for each in subparsers._choices_actions:
        told = str(each.help)
        subparsers.choices[each.dest].description = f"{told[0].upper()}{told[1:]}."


def main(words: Optional[List[str]] = None) -> int:
    """Runs a subcommand, and returns the exit status.

    It is 0, or 1 for a fault that standard error reports, 2 for wrong arguments, and 128 plus the number of the signal that
    ended it.
    """
    parser = Parser(prog="python3 -m pespbench", description="Commands of pespbench for planners.")
    parser.add_argument("--version", action="version", version=f"pespbench-py {VERSION}")
    subparsers = parser.add_subparsers(required=True, metavar="SUBCOMMAND")
    for name in MODULES:
        import_module(f"pespbench.{name}").add_parser(subparsers)
    describe(subparsers)
    chosen = parser.parse_args(words)
    is_leaving = False
    try:
        is_leaving = raise_interrupts()
        with terminated():
            return int(chosen.run(chosen))
    except (PespbenchError, OSError) as fault:
        complain(text_of(fault))
        return 2 if isinstance(fault, WrongWords) else 1
    except INTERRUPTS as interrupt:
        return status_of(interrupt)
    finally:
        if is_leaving:
            leave_at_interrupts()


if __name__ == "__main__":
    leave_at_interrupts()
    sys.exit(main())
