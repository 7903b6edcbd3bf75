"""The subcommands `from-lintim` and `to-lintim`."""

from __future__ import annotations

import argparse
import sys
from pathlib import Path

from pespbench.client import Bench
from pespbench.files import read_times
from pespbench.lintim.folder import LEAST_PERIOD, MOST_PERIOD, LinTimFiles, files_in, period_in
from pespbench.lintim.reading import read_lintim
from pespbench.lintim.writing import save_lintim, write_lintim, write_timetable
from pespbench.terminal import write

USUAL_PERIOD = 60


def add_parser(subparsers: argparse._SubParsersAction[argparse.ArgumentParser]) -> None:
    """Adds the parsers of both subcommands."""
    parser = subparsers.add_parser("from-lintim", help="a folder of LinTim or TimPassLib as one of pespbench")
    parser.add_argument("lintim", type=Path, metavar="LINTIM", help="the folder, or only its Activities-periodic.giv")
    parser.add_argument("folder", type=Path, metavar="FOLDER", help="the folder of pespbench to write")
    parser.add_argument("--timetable", type=Path, metavar="FILE", help="Timetable-periodic.tim, instead of the folder's")
    parser.add_argument("--events", type=Path, metavar="FILE", help="Events-periodic.giv, for labels")
    parser.add_argument("--stops", type=Path, metavar="FILE", help="Stop.giv, for the names and places of stations")
    periods = range(LEAST_PERIOD, MOST_PERIOD + 1)
    told = "the period, 2 to 1440 [default: period_length of the folder's Config, else 60]"
    parser.add_argument("--period", type=int, choices=periods, metavar="T", help=told)
    parser.set_defaults(run=run)
    back = subparsers.add_parser("to-lintim", help="a network with its timetable as LinTim's files")
    back.add_argument("network", type=Path, metavar="NETWORK", help="a folder of pespbench, or a file of times")
    back.add_argument("lintim", type=Path, metavar="LINTIM", help="the folder to write, or for times the Timetable-periodic.tim")
    back.add_argument("--program", metavar="PROGRAM", help="the pespbench to run [default: $PESPBENCH, or that on the path]")
    back.set_defaults(run=run_back)


def run(words: argparse.Namespace) -> int:
    """Writes the folder, and prints how weights were scaled, if they were, and whether passengers were missing."""
    is_folder = words.lintim.is_dir()
    files = files_in(words.lintim) if is_folder else LinTimFiles(words.lintim)
    read = read_lintim(files.activities, words.timetable or files.timetable, words.events or files.events, words.stops or files.stops)
    period = words.period or (period_in(files.config, words.lintim) if files.config else None) or USUAL_PERIOD
    save_lintim(read, words.folder, period)
    if read.scale > 1:
        told = f"weights are {read.scale} times the passengers, so that they are whole; so is the cost"
    elif not any(each.weight for each in read.activities.values()):
        told = "there are no passengers, so that all weights are 0"
    else:
        return 0
    write(f"{told}\n", sys.stderr)
    return 0


def run_back(words: argparse.Namespace) -> int:
    """Writes the files, and reports windows, which they cannot contain."""
    if not words.network.is_dir():
        write_timetable(words.lintim, read_times(words.network))
        return 0
    with Bench.load(words.network, program=words.program) as bench:
        write_lintim(words.lintim, bench.network, bench.times, bench.labels, bench.places)
        count = sum(window is not None for window in bench.network.windows.values())
    if count:
        write(f"LinTim has no windows, and {count} are left out\n", sys.stderr)
    return 0
