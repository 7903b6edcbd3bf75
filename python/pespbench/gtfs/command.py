"""The subcommand `from-gtfs`."""

from __future__ import annotations

import argparse
import re
import sys
from datetime import date, datetime
from pathlib import Path

from pespbench.gtfs.feed import read_feed
from pespbench.gtfs.periodic import drawn_of
from pespbench.lintim.folder import LEAST_PERIOD, MOST_PERIOD
from pespbench.terminal import write


def add_parser(subparsers: argparse._SubParsersAction[argparse.ArgumentParser]) -> None:
    """Adds the subcommand's parser."""
    parser = subparsers.add_parser("from-gtfs", help="the periodic trains of a GTFS feed, in one period, as a folder")
    parser.add_argument("feed", type=Path, metavar="FEED", help="a zip archive, or the folder of its files")
    parser.add_argument("folder", type=Path, metavar="FOLDER", help="the folder of pespbench to write")
    periods = range(LEAST_PERIOD, MOST_PERIOD + 1)
    parser.add_argument("--period", type=int, choices=periods, default=60, metavar="T", help="the period, 2 to 1440 [default: 60]")
    parser.add_argument("--from", dest="start", type=of_the_clock, default="8:00", metavar="TIME", help="the start of the period [default: 8:00]")
    parser.add_argument("--date", dest="day", type=day_of, metavar="YYYY-MM-DD", help="the day [default: all days, each train once]")
    parser.add_argument("--more", type=int, choices=range(1_000), default=1, metavar="N", help="additional minutes that runs and dwells may take [default: 1]")
    parser.set_defaults(run=run)


def of_the_clock(text: str) -> int:
    """The minutes since midnight. Raises ArgumentTypeError."""
    found = re.fullmatch("([0-9]{1,2}):([0-5][0-9])", text)
    if not found:
        raise argparse.ArgumentTypeError(f"it is a time as 8:00, and not {text!r}")
    return 60 * int(found[1]) + int(found[2])


def day_of(text: str) -> date:
    """A day. Raises ArgumentTypeError."""
    try:
        return datetime.strptime(text, "%Y-%m-%d").date()
    except ValueError:
        raise argparse.ArgumentTypeError(f"it is a day as 2026-12-01, and not {text!r}") from None


def run(words: argparse.Namespace) -> int:
    """Writes the folder, and prints how many trains it has and how many trips do not repeat; the status is 1 if none does."""
    drawn = drawn_of(read_feed(words.feed, words.day), words.period, words.start, words.more)
    write(f"{drawn.trains} trains come each {words.period} minutes; {drawn.left_out} trips do not, and are left out\n", sys.stderr)
    if not drawn.trains:
        return 1
    drawn.save(words.folder)
    return 0
