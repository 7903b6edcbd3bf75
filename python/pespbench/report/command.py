"""The subcommand `report`."""

from __future__ import annotations

import argparse
import sys
from pathlib import Path
from typing import Optional

from pespbench.answers import Found
from pespbench.client import Bench
from pespbench.folders import own_file
from pespbench.opening import add_network, open_network, seconds
from pespbench.places import Place, read_places
from pespbench.report.drawing import netgraph_of
from pespbench.report.gathering import gather
from pespbench.report.page import page_of
from pespbench.terminal import shown, tell
from pespbench.watching import Line
from pespbench.writing import write_set, write_text


def add_parser(subparsers: argparse._SubParsersAction[argparse.ArgumentParser]) -> None:
    """Adds the subcommand's parser."""
    parser = subparsers.add_parser("report", help="a report on a network and its timetable, as one HTML file")
    add_network(parser)
    places = "places of stations: station; x; y [default: the file places of a folder, else laid out]"
    parser.add_argument("--places", metavar="FILE", help=places)
    parser.add_argument("--title", default="Timetable", help="the title [default: Timetable]")
    output = "the file of the report; - is standard output [default: the name of NETWORK with .html, in this folder]"
    parser.add_argument("--output", metavar="FILE", help=output)
    parser.add_argument("--netgraph", metavar="FILE", help="also write the netgraph alone, as an SVG picture; this needs Node")
    best = "search for the best timetable for SECONDS, and report on it if one is found"
    parser.add_argument("--search", metavar="SECONDS", type=seconds, help=best)
    parser.set_defaults(run=run)


def run(words: argparse.Namespace) -> int:
    """Writes the report, and the netgraph alone if it is requested; without Node only the report, with a warning."""
    places = places_for(words)
    with open_network(words) as bench:
        found = None if words.search is None else searched(bench, words.search)
        content = gather(bench, words.title, places, found)
    text = page_of(content)
    output = words.output or f"{Path(words.network).resolve().name or 'report'}.html"
    if output == "-":
        sys.stdout.write(text)
    elif words.output is None:
        # Nobody chose this name, so a link in its place is not followed.
        write_set(Path(), {output: text})
        tell(f"{shown(output)}\n")
    else:
        write_text(output, text)
    if words.netgraph is not None:
        write_text(words.netgraph, netgraph_of(content))
    return 0


def places_for(words: argparse.Namespace) -> Optional[dict[str, Place]]:
    """The places of the named file, or of the one in the network's folder; None if there is neither."""
    is_folder = Path(words.network).is_dir()
    path = words.places or (own_file(words.network, "places") if is_folder else None)
    return None if path is None else read_places(path)


def searched(bench: Bench, limit: float) -> Optional[Found]:
    """The result of a search; its timetable, if there is one, becomes the working timetable."""
    with Line() as line:
        found = bench.search(limit, watch=line).found()
    if found.times:
        bench.set_times(found.times)
    return found
