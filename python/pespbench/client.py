"""A network in an engine, as an object: a method for each command, and what the client adds to them."""

from __future__ import annotations

import os
import re
from operator import index
from typing import Iterable, List, Mapping, Optional, Tuple, Union

from pespbench import files
from pespbench.answers import Answer
from pespbench.commands import checked
from pespbench.curing import cured
from pespbench.engines import Engine
from pespbench.faults import Ended
from pespbench.journal import journal_of
from pespbench.labels import Labels
from pespbench.patience import Patience
from pespbench.questions import Questions, Taken
from pespbench.session import Cost, Session
from pespbench.tables import Given, network_of
from pespbench.work import Work

Path = Union[str, "os.PathLike[str]"]
# The comment of a script that has its period.
PERIOD_COMMENT = re.compile("[ \t]*#[ \t]+period[ \t]+([0-9]{1,9})(?=[ \t\r]|$)")


class Bench(Questions):
    """A network in a running program, or in the library in this process (`open`).

    There is a method for each command (Commands). Accepted changes are kept: if a search is killed (Ctrl-C, `search`), or the
    program ends, the next use restarts it with all of them. One thread at a time uses a bench; a `with` statement closes it.

    With the library (pespbench.in_process) all answers are the same, and a move takes microseconds. Ctrl-C interrupts a search
    at once, and any other call after its answer, within about a second. An abandoned search cannot be stopped there: the bench
    continues without it, and it uses a processor until it ends, or this process does.
    """

    @classmethod
    def open(
        cls,
        activities: Optional[Path],
        *,
        fixed: Optional[Path] = None,
        times: Optional[Path] = None,
        period: int = 60,
        labels: Union[Path, Labels, None] = None,
        program: Optional[Path] = None,
        engine: Union[str, Engine] = "program",
        library: Optional[Path] = None,
        journal: Union[int, str] = "all",
        patience: Optional[float] = None,
    ) -> "Bench":
        """Opens files like the program; `activities` may be None, for a network without events.

        `engine` answers the commands. "program" runs `program`; if that is None, the program of the environment's PESPBENCH,
        else `pespbench` on the path. "module" runs the page's module under Node instead, of which nothing is proved. "library"
        uses the library in this process: the file or folder `library`, else the first that find_library of pespbench.library
        finds.

        `journal` says which accepted changes are kept for `undo` and `journal`: "all", a number of the last ones, or "none"; 0
        is none. A trial keeps its own while it lasts. Restarting an ended engine needs no journal.

        `patience` is the number of seconds, at least five, to wait for an answer other than a search's; lines and files extend
        it. A program that does not answer until then is abandoned, and Ended is raised. If it is None, the wait has no limit.

        The times are read here too, so their file must be readable twice. Raises Ended if the program refuses the files or the
        period, FileNotFoundError without a program, NoLibrary without a library, WrongWords for another engine or journal, and
        OSError and FileFault for the labels.
        """
        kept, answering, period = journal_of(journal), Engine.of(engine, program, library), index(period)
        named = labels if labels is None or isinstance(labels, Labels) else Labels.read(labels)
        paths = {"activities": activities, "fixed": fixed, "times": times}
        try:
            session = Session.opened(answering, period, paths, kept, Patience(patience))
        except Ended as ended:
            raise cured(ended, paths) from None
        bench = cls(session, named)
        try:
            given = {} if times is None else files.read_times(times)
        except BaseException:
            bench.close()
            raise
        events = session.work.network.windows
        session.work.times = {event: given[event] % period for event in sorted(given) if event in events}
        return bench

    @classmethod
    def from_script(
        cls,
        script: str,
        *,
        period: Optional[int] = None,
        labels: Union[Path, Labels, None] = None,
        program: Optional[Path] = None,
        engine: Union[str, Engine] = "program",
        library: Optional[Path] = None,
        journal: Union[int, str] = "all",
        patience: Optional[float] = None,
    ) -> "Bench":
        """Opens the network of a script, such as that of `dump`.

        The default period is that of its comment `# period T lines N`, or else 60. Raises Refused or Fault for the first line
        that is not accepted, Ended for a period that the program refuses, and what `open` raises for the engine, the journal
        and the labels.
        """
        lines = script.split("\n")
        if period is None:
            told = filter(None, map(PERIOD_COMMENT.match, lines))
            period = next((int(found[1]) for found in told), 60)
        bench = cls.open(
            None, period=period, labels=labels, program=program, engine=engine, library=library, journal=journal, patience=patience
        )  # fmt: skip
        try:
            bench._all(line for line in lines if line.split() and not line.split()[0].startswith("#"))
            bench._session.journal.clear()
        except BaseException:
            bench.close()
            raise
        return bench

    @classmethod
    def of(
        cls,
        given: Given,
        *,
        period: Optional[int] = None,
        times: Optional[Mapping[int, int]] = None,
        labels: Union[Path, Labels, None] = None,
        program: Optional[Path] = None,
        engine: Union[str, Engine] = "program",
        library: Optional[Path] = None,
        journal: Union[int, str] = "all",
        patience: Optional[float] = None,
    ) -> "Bench":
        """Opens a Network, rows of activities, or a DataFrame of such rows, as `rows` returns them.

        A row is an Activity, six numbers, or has columns `activity`, `from_event`, `to_event`, `lower`, `upper` and `weight`,
        and perhaps `kind`; other columns are ignored. The default period is that of a Network, else 60. Raises TypeError,
        KeyError and ValueError for invalid rows, and what `from_script` and `set_times` raise.
        """
        network, kinds = network_of(given, period)
        bench = cls.from_script(
            network.text(), labels=labels, program=program, engine=engine, library=library, journal=journal, patience=patience
        )  # fmt: skip
        try:
            bench.labels.activities = {**kinds.activities, **bench.labels.activities}
            wanted = dict({} if times is None else times)
            if wanted:
                bench.set_times(wanted)
            bench._session.journal.clear()
        except BaseException:
            bench.close()
            raise
        return bench

    @classmethod
    def load(
        cls,
        folder: Path,
        *,
        fixed: Optional[Path] = None,
        times: Optional[Path] = None,
        period: Optional[int] = None,
        labels: Union[Path, Labels, None] = None,
        program: Optional[Path] = None,
        engine: Union[str, Engine] = "program",
        library: Optional[Path] = None,
        journal: Union[int, str] = "all",
        patience: Optional[float] = None,
    ) -> "Bench":
        """Opens a folder that `save` has written; arguments replace the folder's own files.

        Raises OSError, FileFault, and what `open` raises.
        """
        from pespbench.folders import load

        answering = Engine.of(engine, program, library)
        given = {"fixed": fixed, "times": times, "labels": labels}
        return load(folder, answering, period, given, {"journal": journal, "patience": patience})

    def save(self, folder: Path) -> None:
        """Writes network, times, labels and places to a folder, which is created if missing. Raises OSError.

        Everything is written, or nothing changes (pespbench.writing). `pespbench --check` reads its files `activities`, `fixed`
        and `times`.
        """
        from pespbench.folders import save

        save(self, folder)

    def set_times(self, times: Mapping[int, int]) -> None:
        """Makes these the working timetable, in one write; events that are left out then have no time.

        Either all times are set, or none. Raises Refused for a missing event (2) and for a time that is not below the period (4),
        ValueError for no times, as in the result of a search that found no timetable, TypeError for a value that is not a whole
        number, and what each command raises.
        """
        wanted = {index(event): index(time) for event, time in dict(times).items()}
        if not wanted and self._session.work.network.windows:
            raise ValueError("no times are given, as a search gives them that found no timetable; untime takes one away")
        journal = self._session.journal
        with journal.held() as mark:
            try:
                self._all(Work.change_to(self._session.work.times, wanted))
            except BaseException:
                self._session.take_back(mark)
                raise
            journal.join(mark)

    def take(self, found: Taken) -> None:
        """Makes the timetable that a search found the working timetable: a result of `search`, `optimum` or `near`, or a Price.

        Raises ValueError if it has found none, and what `set_times` raises.
        """
        if found.cost is None or len(found.times) < len(self.network.windows):
            raise ValueError("there is no timetable to take: the search found none, or returned its cost alone")
        self.set_times(found.times)

    # The two calls that a local search makes most often use a direct call of the engine if it succeeds, and otherwise a line.

    def time(self, event: int, time: int) -> None:
        """Sets the event's time, below the period, in the working timetable."""
        if not (type(event) is int and type(time) is int and self._session.set_time(event, time)):
            super().time(event, time)

    def cost(self) -> int:
        """The cost of the working timetable: weight times slack, over all activities. Raises Refused (11) if a time is missing."""
        cost = self._session.cost()
        return super().cost() if cost is None else cost

    # Lines and searches.

    def ask(self, command: str) -> Answer:
        """The answer to a command line: None for an edit. Raises ValueError for a line that has no reply."""
        return self._session.answer(checked(command))

    def moves(self, moves: Iterable[Tuple[int, int]]) -> List[Cost]:
        """Sets times, each an event with its time, and returns the cost after each: like `time` and `cost` for each, but faster.

        As in `many`, a refusal or a fault is a value of the list, of the move or of its cost, and the other moves are still
        made; each accepted move is a separate change. Raises TypeError, before anything is set, for a value that is not a whole
        number, and Ended and BadReply; changes accepted before that are kept.
        """
        return list(self._session.moves([(index(event), index(time)) for event, time in moves]))

    def _repr_html_(self) -> str:
        from pespbench.showing import bench_html

        return bench_html(self)
