"""A network in an engine, which is reopened with all accepted commands if it has ended."""

from __future__ import annotations

from contextlib import contextmanager
from typing import Callable, Iterator, List, Mapping, Optional, Sequence, Tuple, TypeVar, Union

from pespbench.answers import Answer, Optimum
from pespbench.commands import CHANGES, name_of, split
from pespbench.engines import Engine, Path
from pespbench.faults import BadReply, Fault, Refused
from pespbench.fitting import fits, is_whole
from pespbench.journal import Change, Journal
from pespbench.methods import found_by
from pespbench.patience import Patience, PATIENT
from pespbench.replies import answer_of, is_reply_to
from pespbench.transport import Reached, Transport
from pespbench.work import Work, work_of

Kind = TypeVar("Kind")
Outcome = Union[Answer, Refused, Fault]
# The result of a move.
Cost = Union[int, Refused, Fault]
# The number of lines that are sent at once.
BATCH = 50_000


class Session:
    """The client's view of network and times, an engine with the same state, and the journal of accepted changes."""

    def __init__(self, engine: Engine, work: Work, transport: Optional[Transport] = None, journal: Optional[Journal] = None) -> None:
        self.engine = engine
        self.work = work
        self.journal = Journal() if journal is None else journal
        # Changes below this place, from before a trial, are not undone.
        self.floor = 0
        # How long to wait for an answer without a deadline.
        self.patience = PATIENT
        self._transport = transport
        self._is_closed = False

    @classmethod
    def opened(
        cls, engine: Engine, period: int, paths: Mapping[str, Optional[Path]], journal: Journal, patience: Patience = PATIENT
    ) -> "Session":
        """Opens files, and queries their contents. Raises Ended if they are refused, and BadReply."""
        transport = engine.opened(period, paths)
        try:
            with patience_with(engine, patience.seconds).of_files(paths.values()) as deadline:
                [reply] = transport.replies(["dump"], deadline)
            work = dumped(reply, period)
        except BaseException:
            transport.kill()
            raise
        session = cls(engine, work, transport, journal)
        session.patience = patience_with(engine, patience.seconds)
        return session

    @contextmanager
    def waiting(self, seconds: float) -> Iterator[None]:
        """In this context, an answer that is not a search's is awaited at most this long, unless a patience was given."""
        before = self.patience
        self.patience = patience_with(self.engine, seconds) if before.seconds is None else before
        try:
            yield
        finally:
            self.patience = before

    def in_library(self) -> "Session":
        """This session, or one over the library beside its program, with the same work. Raises NoLibrary if there is none."""
        if self.engine.name == "library":
            return self
        return Session(Engine.of("library", program=self.engine.path), self.work)

    def open(self, lines: int) -> None:
        """Opens the engine if necessary, with room for this many lines. Raises Ended and BadReply."""
        with self._whole():
            self._ready(lines)

    def close(self) -> None:
        """Ends the engine; nothing is answered afterwards."""
        self._is_closed = True
        transport, self._transport = self._transport, None
        if transport is not None:
            transport.close()

    def drop(self) -> None:
        """Ends the engine by force. The next use reopens it."""
        transport, self._transport = self._transport, None
        if transport is not None:
            transport.kill()

    def end(self) -> None:
        """Ends the engine by force; any thread may call it, and the one that waits for an answer receives Ended."""
        transport = self._transport
        if transport is not None:
            transport.end()

    def _ready(self, lines: int) -> Transport:
        """The engine, with room for this many lines, and with all accepted commands. Raises ValueError if it is closed."""
        if self._is_closed:
            raise ValueError("the bench is closed")
        if self._transport is not None and self._transport.is_full(lines):
            self.drop()
        if self._transport is None:
            transport = self.engine.opened(self.work.network.period, {})
            try:
                sync(transport, self.work.script(), self.patience)
            except BaseException:
                transport.kill()
                raise
            self._transport = transport
        return self._transport

    @contextmanager
    def _whole(self) -> Iterator[None]:
        """Drops the engine if the context does not end normally; so the next use agrees with the work."""
        try:
            yield
        except BaseException:
            self.drop()
            raise

    def outcomes(self, commands: Sequence[str], deadline: Optional[float] = None) -> Iterator[Outcome]:
        """The outcome of each command, as it arrives; accepted changes go to the work and to the journal.

        If the caller stops, or anything is raised, the engine is dropped, and no outcome is lost. Raises Ended, OutOfTime
        and BadReply.
        """
        for start in range(0, len(commands), BATCH):
            yield from self._batch(commands[start : start + BATCH], deadline)

    def answer(self, command: str, deadline: Optional[float] = None) -> Answer:
        """The answer to one command. Raises what `outcomes` raises, and Refused and Fault."""
        [outcome] = self.outcomes([command], deadline)
        if isinstance(outcome, (Refused, Fault)):
            raise outcome
        return outcome

    def _batch(self, commands: Sequence[str], deadline: Optional[float]) -> Iterator[Outcome]:
        # Only the reply to `optimum` says what is adopted; that is known by then.
        lines = [line for command in commands for line in ([command, "optimum"] if command.split() == ["adopt"] else [command])]
        with self._whole():
            transport = self._ready(len(lines))
            with self.patience.of_lines(len(lines), deadline) as until:
                replies = transport.replies(lines, until)
                for command in commands:
                    outcome = self._outcome(command, next(replies))
                    if command.split() == ["adopt"]:
                        outcome = self._adopted(outcome, self._outcome("optimum", next(replies)))
                    elif outcome is None and name_of(command) in CHANGES:
                        self._accept(command)
                    yield outcome

    def _outcome(self, command: str, reply: Sequence[str]) -> Outcome:
        """The outcome in a reply. Raises BadReply, also for a reply that does not fit this network."""
        outcome = outcome_of(command, reply)
        if not fits(outcome, self.work.network):
            raise BadReply(reply[0])
        return outcome

    def _accept(self, command: str) -> None:
        name, numbers = split(command)
        # Setting times is the most frequent change, and takes the least memory in the journal's own form.
        if name == "time" and command == f"time {numbers[0]} {numbers[1]}":
            self._take_move(*numbers)
        else:
            self.journal.append(Change((command,), tuple(self.work.apply(command))))

    def moves(self, moves: Sequence[Tuple[int, int]]) -> Iterator[Cost]:
        """Sets times, and yields the cost after each, or its refusal; otherwise like `outcomes`."""
        for start in range(0, len(moves), BATCH):
            yield from self._moves(moves[start : start + BATCH])

    def _moves(self, moves: Sequence[Tuple[int, int]]) -> Iterator[Cost]:
        with self._whole():
            transport = self._ready(2 * len(moves))
            with self.patience.of_lines(2 * len(moves)) as until:
                for move, told in zip(moves, transport.moved(moves, until)):
                    if isinstance(told, int):
                        self._take_move(*move)
                        yield told
                    else:
                        yield self._cost_after(move, *told)

    def _cost_after(self, move: Tuple[int, int], reply: List[str], cost: List[str]) -> Cost:
        outcome = outcome_of("time {} {}".format(*move), reply)
        if outcome is None:
            self._take_move(*move)
            outcome = self._outcome("cost", cost)
        if isinstance(outcome, (int, Refused, Fault)):
            return outcome
        raise BadReply(str(outcome))

    def _take_move(self, event: int, time: int) -> None:
        # If this is interrupted after the first, the change that would be undone was not made yet, and is unaffected.
        times = self.work.times
        self.journal.append((event, time, times.get(event)))
        times[event] = time

    def searched(self, nodes: int, deadline: float) -> Reached:
        """The result of a search with this many nodes, which changes nothing. Raises what `answer` raises."""
        reached = self.by_call(lambda transport: transport.searched(nodes, self.work.network.events, deadline))
        if reached is not None:
            return reached
        with self.waiting(0):
            return Reached(found_by(self.answer(f"try {nodes}", deadline)))

    def by_call(self, call: Callable[[Transport], Kind]) -> Kind:
        """The result of a call of the engine, which changes nothing. Raises what the call raises."""
        # Only reopening the engine has no deadline.
        with self.waiting(0), self._whole():
            return call(self._ready(1))

    def set_time(self, event: int, time: int) -> bool:
        """Sets a time if the engine does that at once and accepts it; otherwise nothing has changed."""
        transport = self._transport
        if transport is None:
            return False
        try:
            if not transport.set_time(event, time):
                return False
            self._take_move(event, time)
        except BaseException:
            self.drop()
            raise
        return True

    def cost(self) -> Optional[int]:
        """The cost if the engine returns it at once."""
        transport = self._transport
        return None if transport is None else transport.cost()

    def _adopted(self, outcome: Outcome, optimum: Outcome) -> Outcome:
        """The outcome of `adopt`: the adopted optimum, or the refusal."""
        if outcome is not None:
            return outcome
        if not isinstance(optimum, Optimum):
            raise BadReply(str(optimum))
        self.take_times(optimum.times)
        return optimum

    def take_times(self, times: Mapping[int, int]) -> None:
        """Records that the engine has other times now."""
        commands = Work.change_to(self.work.times, times)
        self.journal.append(Change(tuple(commands), tuple(self.work.set_times(times))))

    def take_back(self, mark: int) -> List[str]:
        """Undoes the changes above a place of the journal, and returns their commands.

        The work changes first, and then the engine, which is dropped if that fails: so both agree at its next use. Raises
        NotKept if some of the changes are no longer kept.
        """
        if len(self.journal) <= mark:
            return []
        change = self.journal.take_out(mark)
        with self._whole():
            for command in change.back:
                self.work.apply(command)
            if self._transport is not None:
                sync(self._ready(len(change.back)), change.back, self.patience)
        return list(change.commands)


def patience_with(engine: Engine, seconds: Optional[float]) -> Patience:
    """The patience with an engine: the library is part of this process, and cannot be killed."""
    return PATIENT if engine.name == "library" else Patience(seconds)


def outcome_of(command: str, reply: Sequence[str]) -> Outcome:
    """The answer in a reply, or its refusal or fault as a value. Raises BadReply, also for a reply to another command."""
    if not is_reply_to(command, reply):
        raise BadReply(f"{reply[0]} to {command}")
    try:
        return answer_of(reply)
    except (Refused, Fault) as told:
        return told


def sync(transport: Transport, commands: Sequence[str], patience: Patience) -> None:
    """Sends commands that the engine has to accept. Raises BadReply if it does not, and Ended."""
    with patience.of_lines(len(commands)) as until:
        for command, reply in zip(commands, transport.replies(commands, until)):
            if reply != ["ok"]:
                raise BadReply(f"{reply[0]} to {command}")


def dumped(reply: Sequence[str], period: int) -> Work:
    """The network of a reply to `dump`. Raises BadReply for any other text, and for a network of another period."""
    try:
        work = work_of(list(reply[1:]), period)
    except (KeyError, IndexError, TypeError, ValueError):
        raise BadReply(reply[0]) from None
    if not isinstance(answer_of(reply), str) or work.times or not is_whole(work.network):
        raise BadReply(reply[0])
    return work
