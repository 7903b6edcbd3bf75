"""The subcommand `draw`."""

from __future__ import annotations

import argparse
from pathlib import Path

from pespbench.drawn.drawing import FEWEST_LINES, LINES, MOST_LINES, draw_region
from pespbench.faults import WrongWords


def add_parser(subparsers: argparse._SubParsersAction[argparse.ArgumentParser]) -> None:
    """Adds the subcommand's parser."""
    parser = subparsers.add_parser("draw", help="write a random region, by a seed, to a folder, for experiments")
    parser.add_argument("seed", type=int, metavar="SEED", help="the same seed gives the same region on every machine")
    parser.add_argument("folder", type=Path, metavar="FOLDER", help="the folder of the region, with a timetable that meets everything")
    parser.add_argument("--infeasible", action="store_true", help="move one span, so that no timetable meets everything")
    parser.add_argument("--lines", type=int, default=LINES, help=f"the number of lines, {FEWEST_LINES} to {MOST_LINES}, of some 17 events each [default: {LINES}]")
    parser.set_defaults(run=run)


def run(words: argparse.Namespace) -> int:
    """Writes the region. Raises WrongWords for too few or too many lines."""
    try:
        region = draw_region(words.seed, feasible=not words.infeasible, lines=words.lines)
    except ValueError as fault:
        raise WrongWords(str(fault)) from None
    region.save(words.folder)
    return 0
