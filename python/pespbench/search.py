"""`search`: the optimum of a network, within a time or in parts on all processors."""

from __future__ import annotations

import argparse
import sys
from typing import Optional, Tuple

from pespbench.answers import Found, Stopped
from pespbench.boards import timetable_text
from pespbench.client import Bench
from pespbench.ending import INTERRUPTS, status_of, uninterrupted
from pespbench.faults import FileFault, PespbenchError
from pespbench.files import read_times
from pespbench.folders import own_file
from pespbench.forms import add_form, in_form, table_of
from pespbench.opening import add_network, open_network, seconds, whole
from pespbench.parts import optimum_in_parts
from pespbench.terminal import tell, write
from pespbench.watching import Line, Watch
from pespbench.wording import Names, found_text


def add_parser(subparsers: "argparse._SubParsersAction[argparse.ArgumentParser]") -> None:
    """Adds the subcommand."""
    parser = subparsers.add_parser("search", help="search for the best timetable, and save it")
    add_network(parser)
    parser.add_argument("--seconds", type=seconds, default=60.0, help="how long to search [default: 60]")
    parser.add_argument("--parts", action="store_true", help="search in parts, on all processors, until the optimum is found")
    parser.add_argument("--spans", type=whole, default=2, help="the number of spans to split [default: 2]")
    parser.add_argument("--ranges", type=whole, default=3, help="the number of ranges of each [default: 3]")
    parser.add_argument("--workers", type=whole, help="the number of programs in parallel [default: one for each processor]")
    saved = "write the network with the best known timetable, also at Ctrl-C; never a dearer one than the folder has"
    parser.add_argument("--save", metavar="FOLDER", help=saved)
    add_form(parser)
    parser.set_defaults(run=run)


def run(words: argparse.Namespace) -> int:
    """Prints the result, by stations or like the program; the exit status is 1 if no timetable was found.

    Raises what ended the search early, after saving its result so far; for an interrupt the status reports it.
    """
    with open_network(words) as bench:
        if words.save:
            take_better(bench, bench.standing(), words.save)
        found, ended = looked_for(bench, words)
        with uninterrupted():
            if words.save and found.cost is not None:
                found = take_better(bench, found, words.save)
                bench.save(words.save)
            told = in_form(words.form, table_of(found), timetable_text(found, Names(bench.labels, bench.network.activities), bench.period))
            tell(told)
            if isinstance(found, Stopped) and found_text(found) not in told:
                write(f"{found_text(found)}\n", sys.stderr)
    if isinstance(ended, PespbenchError):
        raise ended
    if ended is not None:
        return status_of(ended)
    return 1 if found.cost is None else 0


def looked_for(bench: Bench, words: argparse.Namespace) -> Tuple[Found, Optional[BaseException]]:
    """The result of a search; if something ends it early, the best so far, and what ended it."""
    with Line() as line:
        try:
            return sought(bench, words, line), None
        except (*INTERRUPTS, PespbenchError) as ended:
            return line.best, ended


def sought(bench: Bench, words: argparse.Namespace, watch: Watch) -> Found:
    """The result of the requested search."""
    if words.parts:
        return optimum_in_parts(bench, spans=words.spans, ranges=words.ranges, workers=words.workers, watch=watch)
    return bench.search(words.seconds, watch=watch).found()


def take_better(bench: Bench, found: Found, folder: str) -> Found:
    """Makes the timetable found the working timetable, or that of a folder, if that meets everything and is cheaper."""
    there = standing_in(bench, folder)
    if there.is_below(found.cost):
        found = there
    if found.cost is not None:
        bench.set_times(found.times)
    return found


def standing_in(bench: Bench, folder: str) -> Stopped:
    """The timetable of a folder with its cost in a bench, if it meets everything there."""
    try:
        there = own_file(folder, "times")
        listed = read_times(there) if there else {}
    except (OSError, FileFault):
        return Stopped()
    if not all(event in listed for event in bench.network.events):
        return Stopped()
    with bench.trial():
        bench.set_times({event: listed[event] % bench.period for event in bench.network.events})
        return bench.standing()
