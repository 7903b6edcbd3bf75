"""The arguments that several subcommands share: the network to open, and numbers."""

from __future__ import annotations

import argparse
import os

from pespbench.client import Bench
from pespbench.searching import MOST_SECONDS, SECONDS_TEXT


def add_network(parser: argparse.ArgumentParser) -> None:
    """Adds NETWORK and its options to a subcommand's parser; each option replaces a file of a folder."""
    parser.add_argument("network", metavar="NETWORK", help="a file of activities, or a saved folder")
    parser.add_argument("--period", type=int, help="the period, 2 to 1440 [default: 60; of a folder, its own]")
    parser.add_argument("--fixed", metavar="FILE", help="fixed times of events")
    parser.add_argument("--times", metavar="FILE", help="times of events")
    parser.add_argument("--labels", metavar="FILE", help="names of events and kinds of activities")
    parser.add_argument("--program", metavar="PROGRAM", help="the pespbench to run [default: $PESPBENCH, or that on the path]")


def open_network(words: argparse.Namespace) -> Bench:
    """Opens the network that a command line names. Raises what Bench.open and Bench.load raise."""
    # A program that does not answer is abandoned after the requested time, if there is one.
    asked = getattr(words, "seconds", getattr(words, "search", None))
    how = {"fixed": words.fixed, "times": words.times, "labels": words.labels, "program": words.program, "patience": asked}
    if os.path.isdir(words.network):
        return Bench.load(words.network, period=words.period, **how)
    period = 60 if words.period is None else words.period
    return Bench.open(words.network, period=period, **how)


def seconds(text: str) -> float:
    """A time for a search. Raises ArgumentTypeError."""
    try:
        number = float(text)
    except ValueError:
        number = -1.0
    if not 0 <= number <= MOST_SECONDS:
        raise argparse.ArgumentTypeError(f"{SECONDS_TEXT}, and not {text!r}")
    return number


def whole(text: str) -> int:
    """A whole number above 0. Raises ArgumentTypeError."""
    if not text.isdecimal() or int(text) < 1:
        raise argparse.ArgumentTypeError(f"it is a whole number above 0, and not {text!r}")
    return int(text)
