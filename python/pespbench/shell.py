"""`shell`: the program at a terminal, with additional commands (OWN): Ctrl-C keeps the network, and Tab completes."""

from __future__ import annotations

import argparse
from contextlib import nullcontext
from typing import Callable, Dict, List

from pespbench.answers import Stopped
from pespbench.boards import timetable_text
from pespbench.client import Bench
from pespbench.commands import SEARCHES
from pespbench.completion import complete_by
from pespbench.faults import text_of as fault_text
from pespbench.given import Given
from pespbench.helps import helps, text_of as helps_text
from pespbench.helps.command import Latest
from pespbench.mend import text_of as mended_text
from pespbench.mending import mended
from pespbench.opening import add_network, open_network, seconds
from pespbench.questions import Taken
from pespbench.replies import text_of
from pespbench.terminal import shown, tell
from pespbench.watching import Line
from pespbench.why import text_of as why_text, why
from pespbench.wording import Names, found_text

HELP = """Of the network, with E, I and J for events, A for an activity, and times in minutes:
  add event E, drop event E           adds or removes an event
  fix E t, window E f n, unfix E      requires it at t, at one of n minutes from f on, or anywhere
  add activity A I J l u w            from I to J it takes l to u minutes, at w a minute above l
  drop activity A                     removes it
  span A l u, weight A w, ends A I J  changes it
  time E t, untime E                  sets its time in the working timetable, or removes it
Questions:
  domain E, domains                   the times that an event, or each, can still have
  optimum, try N                      the best timetable; the same within N nodes of a search
  adopt                               makes the best timetable the working timetable
  tensions, violations, cost          those of the working timetable
  dump                                the network as commands
Of this shell:
  search SECONDS                      searches for the best timetable
  mend SECONDS                        searches for the nearest one to the working timetable
  take                                makes the result of either the working timetable
  why                                 why no timetable meets everything, and what mends it
  helps SECONDS                       what one more minute at each activity would save
  times                               shows the working timetable
  undo, redo                          undoes the last accepted change; repeats it
  save FOLDER                         writes network, times and labels, to open again
  help; quit, exit or Ctrl-D          shows this; ends the shell
Ctrl-C ends a long search, and no accepted change is lost. Tab completes words and numbers.
"""
ENDS = ("quit", "exit")
# The shell's own commands that may take long.
LONG = ("search", "mend", "why", "helps")


def add_parser(subparsers: "argparse._SubParsersAction[argparse.ArgumentParser]") -> None:
    """Adds the subcommand."""
    parser = subparsers.add_parser("shell", help="type commands; Ctrl-C in a long search keeps the network")
    add_network(parser)
    parser.set_defaults(run=run)


class Desk:
    """A bench, with the result of its last search, and the changes undone last, which `redo` repeats."""

    def __init__(self, bench: Bench) -> None:
        self.bench = bench
        self.found: Taken = Stopped()
        self._undone: List[List[str]] = []
        self._journal: List[str] = []

    def names(self) -> Names:
        """The names of events and activities, as they are now."""
        return Names(self.bench.labels, self.bench.network.activities)

    def undo(self) -> List[str]:
        """Undoes the last change, and returns its commands."""
        self._forget_if_changed()
        self._undone.append(self.bench.undo())
        self._journal = self.bench.journal
        return self._undone[-1]

    def redo(self) -> List[str]:
        """Repeats the change undone last, and returns its commands. Raises ValueError if there is none."""
        self._forget_if_changed()
        if not self._undone:
            raise ValueError("there is nothing to make again")
        commands = self._undone.pop()
        self.bench.many(commands)
        self._journal = self.bench.journal
        return commands

    def _forget_if_changed(self) -> None:
        if self.bench.journal != self._journal:
            self._undone.clear()


def run(words: argparse.Namespace) -> int:
    """Answers lines of standard input until it ends; a search that is running then is abandoned."""
    given = Given()
    with open_network(words) as bench:
        desk = Desk(bench)
        if given.is_typed:
            complete_by(lambda: bench.network, (*OWN, *ENDS))
        tell("help tells the commands, quit ends\n" if given.is_typed else "")
        while True:
            try:
                line = given.line("> " if given.is_typed else "")
                if line is None or line in ENDS:
                    return 0
                if line and not line.startswith("#") and is_left(desk, line, given):
                    return 0
            except KeyboardInterrupt:
                tell("\nstopped; nothing that was accepted is lost\n")


def is_left(desk: Desk, line: str, given: Given) -> bool:
    """Prints the answer to a line; whether the input ended during its search, so that nobody waits for it."""
    searches = line.split()[0] in (*SEARCHES, *LONG)
    with given.kept_by(desk.bench._session.end) if searches else nullcontext() as ending:
        text = told(desk, line)
    if ending is not None and ending.has_come:
        return True
    tell(text)
    return False


def told(desk: Desk, line: str) -> str:
    """The text for a line: its answer, or any exception, since no line ends the shell."""
    try:
        return answer(desk, line)
    except Exception as fault:
        return f"{fault_text(fault) or type(fault).__name__}\n"


def answer(desk: Desk, line: str) -> str:
    """The text for a line. Raises what the client raises, and ValueError for a word of the shell without its number."""
    name, _, rest = line.partition(" ")
    if name in OWN:
        return OWN[name](desk, rest.strip())
    return text_of(line, desk.bench.many([line])[0])


def limit_of(time: str) -> float:
    """The seconds of a search. Raises ValueError."""
    try:
        return seconds(time)
    except argparse.ArgumentTypeError as fault:
        raise ValueError(str(fault)) from None


def _mend(desk: Desk, time: str) -> str:
    known = mended(desk.bench, seconds=limit_of(time))
    desk.found = known.near
    return mended_text(known, desk.bench)


def _search(desk: Desk, time: str) -> str:
    limit = limit_of(time)
    with Line() as line:
        try:
            found = desk.bench.search(limit, watch=line).found()
        except KeyboardInterrupt:
            found = line.best
    desk.found = found
    told, sentence = timetable_text(found, desk.names(), desk.bench.period), found_text(found)
    return told + (f"# {sentence}\n" if isinstance(found, Stopped) and sentence not in told else "")


def _take(desk: Desk, _: str) -> str:
    if desk.found.cost is None:
        raise ValueError("no search of this shell has found a timetable")
    desk.bench.take(desk.found)
    return "ok\n"


def _undo(desk: Desk, _: str) -> str:
    return "".join(f"# taken back: {command}\n" for command in desk.undo())


def _redo(desk: Desk, _: str) -> str:
    return "".join(f"# made again: {command}\n" for command in desk.redo())


def _why(desk: Desk, _: str) -> str:
    return why_text(why(desk.bench), desk.names())


def _helps(desk: Desk, time: str) -> str:
    limit, latest = limit_of(time), Latest()
    try:
        helps(desk.bench, seconds=limit, watch=latest)
    except KeyboardInterrupt:
        if latest.answer is None:
            raise
    finally:
        latest.end()
    return "" if latest.answer is None else helps_text(latest.answer, desk.names())


def _times(desk: Desk, _: str) -> str:
    names = desk.names()
    return "".join(f"{event} {time}  {names.event(event)}\n" for event, time in desk.bench.times.items())


def _save(desk: Desk, folder: str) -> str:
    if not folder:
        raise ValueError("save wants a folder")
    desk.bench.save(folder)
    return f"# saved: {shown(folder)}\n"


OWN: Dict[str, Callable[[Desk, str], str]] = {
    "search": _search,
    "mend": _mend,
    "why": _why,
    "helps": _helps,
    "take": _take,
    "undo": _undo,
    "redo": _redo,
    "times": _times,
    "save": _save,
    "help": lambda desk, rest: HELP,
}
