"""The local state of a bench, and undo."""

from __future__ import annotations

from contextlib import contextmanager
from typing import Dict, Iterator, List, Optional, TypeVar

from pespbench.engines import Engine
from pespbench.labels import Labels
from pespbench.methods import Commands
from pespbench.network import Network
from pespbench.places import Place
from pespbench.session import Session

Self = TypeVar("Self", bound="Kept")


class Kept(Commands):
    """A session with its labels and places: the network as the accepted commands left it, and their journal."""

    def __init__(self, session: Session, labels: Optional[Labels] = None) -> None:
        """Wraps a session; `open`, `from_script` and `load` create one."""
        self._session = session
        self.labels = Labels() if labels is None else labels
        # The places of stations: x to the east, y to the north.
        self.places: Dict[str, Place] = {}

    def close(self) -> None:
        """Ends the program, or the session of the library. All methods except those of local state then raise ValueError."""
        self._session.close()

    def __enter__(self: Self) -> Self:
        return self

    def __exit__(self, *_: object) -> None:
        self.close()

    # The local state, which needs no command.

    @property
    def engine(self) -> Engine:
        """The engine; another bench can be opened with the same."""
        return self._session.engine

    @property
    def program(self) -> str:
        """The path of the program, or of the library if that is the engine."""
        return self._session.engine.path

    @property
    def period(self) -> int:
        """The period, in units of time."""
        return self._session.work.network.period

    @property
    def network(self) -> Network:
        """The network as the accepted commands left it. It changes with them; only read it."""
        return self._session.work.network

    @property
    def times(self) -> Dict[int, int]:
        """The working timetable: the time of each event that has one, below the period, ascending by event; a copy."""
        known = self._session.work.times
        return {event: known[event] for event in sorted(known)}

    # The journal.

    @property
    def journal(self) -> List[str]:
        """The accepted changes since opening that are not undone, as command lines; only the last ones, if `open` limits them."""
        return self._session.journal.commands()

    def undo(self) -> List[str]:
        """Undoes the last accepted change, and returns its commands; `adopt` and `set_times` are one change each.

        Raises ValueError if there is none, or the trial has none, and NotKept if the journal had to drop it.
        """
        if len(self._session.journal) <= self._session.floor:
            raise ValueError("there is nothing to take back")
        return self._session.take_back(len(self._session.journal) - 1)

    @contextmanager
    def trial(self: Self) -> Iterator[Self]:
        """Undoes all changes of the `with` statement at its end, whatever ends it."""
        session = self._session
        floor = session.floor
        with session.journal.held() as mark:
            session.floor = mark
            try:
                yield self
            finally:
                session.floor = floor
                session.take_back(mark)
