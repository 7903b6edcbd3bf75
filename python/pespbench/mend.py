"""`mend`: the nearest timetable that meets everything, after edits."""

from __future__ import annotations

import argparse
from typing import List, Optional, Tuple

from pespbench.client import Bench
from pespbench.ending import INTERRUPTS, status_of, uninterrupted
from pespbench.faults import PespbenchError, WrongWords
from pespbench.forms import Table, add_form, in_form
from pespbench.mending import Mended, mended
from pespbench.opening import add_network, open_network, seconds
from pespbench.terminal import tell
from pespbench.variants import change
from pespbench.wording import Names, clock, minutes


def add_parser(subparsers: "argparse._SubParsersAction[argparse.ArgumentParser]") -> None:
    """Adds the subcommand."""
    parser = subparsers.add_parser("mend", help="move as few events as little as possible, so that everything is met")
    add_network(parser)
    edit = "an edit that is made first, such as `fix 3 7` or `span 1 4 6`; may be repeated"
    parser.add_argument("-c", "--command", dest="commands", action="append", default=[], metavar="COMMAND", help=edit)
    held = "an event that does not move, or is held at a minute, as 3=7; may be repeated"
    parser.add_argument("--hold", dest="held", action="append", type=holding, default=[], metavar="EVENT[=MINUTE]", help=held)
    parser.add_argument("--most", type=some_minutes, metavar="MINUTES", help="the greatest move [default: the least that is enough]")
    parser.add_argument("--seconds", type=seconds, default=60.0, help="how long to search [default: 60]")
    parser.add_argument("--save", metavar="FOLDER", help="write the network with the timetable, also at Ctrl-C")
    add_form(parser)
    parser.set_defaults(run=run)


def holding(text: str) -> Tuple[int, Optional[int]]:
    """An event, and its minute if one is given. Raises ArgumentTypeError."""
    event, sign, minute = text.partition("=")
    if not event.isdecimal() or not (minute.isdecimal() if sign else True):
        raise argparse.ArgumentTypeError(f"it is an event, or an event and its minute as 3=7, and not {text!r}")
    return int(event), int(minute) if sign else None


def some_minutes(text: str) -> int:
    """A whole number from 0 on. Raises ArgumentTypeError."""
    if not text.isdecimal():
        raise argparse.ArgumentTypeError(f"it is a whole number from 0 on, and not {text!r}")
    return int(text)


class Latest:
    """The last result."""

    def __init__(self) -> None:
        self.known = Mended()

    def __call__(self, known: Mended) -> None:
        self.known = known


def run(words: argparse.Namespace) -> int:
    """Prints the nearest timetable, and saves it; the status is 1 if none was found.

    Raises what ended the search early, after printing its result so far; for an interrupt the status reports it.
    """
    with open_network(words) as bench:
        edit(bench, words.commands)
        latest, ended = Latest(), None
        try:
            mended(bench, held=held_in(bench, words.held), most=words.most, seconds=words.seconds, watch=latest)
        except (*INTERRUPTS, PespbenchError) as raised:
            if isinstance(raised, WrongWords):
                raise
            ended = raised
        known = latest.known
        with uninterrupted():
            tell(in_form(words.form, table_of(known, bench), text_of(known, bench)))
            if words.save and known.near.times:
                bench.take(known.near)
                bench.save(words.save)
    if isinstance(ended, PespbenchError):
        raise ended
    if ended is not None:
        return status_of(ended)
    return 0 if known.near.times else 1


def edit(bench: Bench, commands: List[str]) -> None:
    """Makes edits. Raises WrongWords for a line that is not an edit, and Refused or Fault."""
    try:
        lines = [change(command) for command in commands]
    except ValueError as fault:
        raise WrongWords(str(fault)) from None
    bench._all(lines)


def held_in(bench: Bench, held: "List[Tuple[int, Optional[int]]]") -> "dict[int, int]":
    """The minutes of held events. Raises WrongWords for an event without a time for which none is given."""
    times = bench.times
    untimed = [event for event, minute in held if minute is None and event not in times]
    if untimed:
        raise WrongWords(f"event {untimed[0]} has no time to be held at; name it, as {untimed[0]}=7")
    return {event: times[event] if minute is None else minute for event, minute in held}


def text_of(known: Mended, bench: Bench) -> str:
    """The moves, in a planner's words."""
    near, names = known.near, Names(bench.labels, bench.network.activities)
    if not near.times:
        return f"{'No timetable meets everything' if near.is_proved else 'None was found in time'}{limit_text(known)}.\n"
    if not near.moves:
        return f"Nothing has to move. The timetable costs {near.cost:,}.\n"
    count = f"{len(near.moves)} event{'s move' if len(near.moves) > 1 else ' moves'}"
    first = f"{count}, by at most {minutes(near.greatest)}, {minutes(near.minutes or 0)} in all. The timetable costs {near.cost:,}."
    doubts = [] if near.is_proved else ["It is perhaps not the nearest."]
    rows = [(move_text(move), names.event(event), span_text(near.times[event], move, bench.period)) for event, move in near.moves.items()]
    first_width, second_width = (max(len(row[place]) for row in rows) for place in (0, 1))
    return "\n".join([first, *doubts, "", *(f"  {row[0]:>{first_width}}  {row[1]:<{second_width}}  {row[2]}" for row in rows), ""])


def limit_text(known: Mended) -> str:
    """The given greatest move, if there is one."""
    return "" if known.most is None else f" with moves of at most {minutes(known.most)}"


def move_text(move: int) -> str:
    """A move, such as `3 minutes later`."""
    return f"{minutes(abs(move))} {'later' if move > 0 else 'earlier'}"


def span_text(time: int, move: int, period: int) -> str:
    """The times before and after, such as `from :07 to :09`."""
    return f"from {clock((time - move) % period, period)} to {clock(time, period)}"


def table_of(known: Mended, bench: Bench) -> Table:
    """The same for other programs."""
    near, names = known.near, Names(bench.labels, bench.network.activities)
    facts = {
        "found": bool(near.times), "proved": near.is_proved, "most": known.most, "least": known.is_least,
        "minutes": near.minutes, "lower_bound": near.lower_bound, "cost": near.cost,
    }  # fmt: skip
    rows = [[event, names.event(event), near.times[event], move] for event, move in near.moves.items()]
    return Table("mend", facts, ["event", "name", "time", "move"], rows)
