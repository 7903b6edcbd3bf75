"""Questions to a bench that are not commands: searches for the best timetable and the nearest one, and what minutes cost."""

from __future__ import annotations

from dataclasses import dataclass
from operator import index
from typing import Iterable, List, Mapping, Optional, Protocol

from pespbench.answers import Stopped, Violations
from pespbench.commands import checked
from pespbench.faults import Fault, Refused, WrongWords
from pespbench.near import Most, Wish
from pespbench.nearest import Nearest
from pespbench.nearest import Watcher as NearWatcher
from pespbench.price import OfActivity, OfEvent, Question
from pespbench.prices import Prices
from pespbench.prices import Watcher as PriceWatcher
from pespbench.searching import Search, Watcher, check_limits
from pespbench.session import Outcome
from pespbench.tabled import Tabled


class Taken(Protocol):
    """The result of a search: a timetable with its cost, or none."""

    @property
    def cost(self) -> Optional[int]:
        """Its cost, or None."""

    @property
    def times(self) -> Mapping[int, int]:
        """Its times, empty if there is none."""


@dataclass(frozen=True)
class Tried:
    """The effect of a move: by how much the cost changes, and all violations then."""

    change: int
    violations: Violations


class Questions(Tabled):
    """A bench with the questions that take more than one command."""

    def many(self, commands: Iterable[str]) -> List[Outcome]:
        """The answers to command lines, which are written while replies are read.

        A refusal or a fault is a value of the list here, and the other lines are still sent. Raises ValueError, before anything
        is sent, for a line that has no reply, TypeError for one text instead of many, and Ended and BadReply; changes accepted
        before that are kept.
        """
        if isinstance(commands, str):
            raise TypeError("commands are many texts, and not one str")
        return list(self._session.outcomes([checked(command) for command in commands]))

    def standing(self) -> Stopped:
        """The working timetable with its cost if it meets everything; otherwise a cost of None, and no times."""
        if len(self._session.work.times) < len(self.network.windows) or len(self.violations()):
            return Stopped()
        return Stopped(self.cost(), self.times)

    def search(self, seconds: float, nodes: int = 1_000, watch: Optional[Watcher] = None, bounds: bool = False) -> Search:
        """A search for the optimum with a time limit, which reports its progress: `for progress in bench.search(10.0)`.

        It starts with the working timetable, if that meets everything; it runs in steps (see Search), with `nodes` nodes in the
        first; and it ends when the optimum is known, or that there is no timetable (`found` of the last Progress is Infeasible,
        as `optimum` returns it), or the time is over, or the caller stops. Only the library reports a lower bound on the way:
        with `bounds`, the library beside a program searches instead of it, and NoLibrary is raised if there is none. At a gap of
        0 the search continues until the first of the cheapest timetables is known.

        `bench.search(10.0).found()` returns the result at the end. With the library another search of the same network resumes
        from there (see Search). `watch` is also called with each Progress. Ctrl-C raises KeyboardInterrupt, and `progress` of the
        search has the result so far; another search restarts. Network, working timetable and journal do not change. Raises
        ValueError for seconds outside 0 to 1,000,000, or nodes outside 1 to 10**12.
        """
        nodes = index(nodes)
        check_limits(seconds, nodes)
        with self._session.waiting(seconds):
            standing = self.standing()
        session = self._session.in_library() if bounds else self._session
        return Search(session, standing, seconds, nodes, watch)

    def prices(
        self,
        *,
        event: Optional[int] = None,
        activity: Optional[int] = None,
        seconds: float = 60.0,
        nodes: int = 1_000,
        within: Optional[int] = None,
        watch: Optional[PriceWatcher] = None,
    ) -> Prices:
        """What the best timetable costs with an event at each residue, or an activity at each tension of its span.

        `for price in bench.prices(event=3)` yields each Price when more is known of it, cheapest first where something is known,
        and `bench.prices(event=3).found()` returns all at the end (see Prices). All else holds as it is: residues outside of a
        window have no timetable, unless a trial unfixes the event. With `within`, only what costs no more is of interest: other
        values get a lower bound above it as soon as spans without the dearer minutes, or the engine's bound, show that they cost
        more. `nodes`, `watch`, and the values of `seconds` are those of `search`.

        Raises WrongWords unless there is one such event or activity, or for a cost below 0, ValueError for other limits, and what
        `domain` raises.
        """
        check_limits(seconds, index(nodes))
        cap = None if within is None else index(within)
        if cap is not None and cap < 0:
            raise WrongWords("no timetable costs less than 0")
        return Prices(self, self._question(event, activity), seconds, index(nodes), cap, watch)

    def near(
        self,
        times: Optional[Mapping[int, int]] = None,
        *,
        held: Optional[Mapping[int, int]] = None,
        most: Most = None,
        weights: Optional[Mapping[int, int]] = None,
        seconds: float = 60.0,
        nodes: int = 1_000,
        watch: Optional[NearWatcher] = None,
    ) -> Nearest:
        """The timetable that meets everything and differs least from given times, by default the working timetable.

        The minutes by which times differ, round the period either way, count by `weights`, by default 1; of those with the
        fewest minutes it is one that costs least. `held` events are at these times, and no event moves more than `most` minutes,
        a number or one for each event. Events without a given time are free. `bench.near().found()` returns the Near at the end,
        and iteration yields it after each step (see Nearest); `take` makes it the working timetable. `seconds`, `nodes` and
        `watch` are those of `search`.

        Raises WrongWords for missing events and impossible values, and for too large a network, and ValueError for limits.
        """
        check_limits(seconds, index(nodes))
        wish = Wish.of(self.network, self.times if times is None else times, held or {}, most, weights or {})
        return Nearest(self, wish, seconds, index(nodes), watch)

    def try_move(self, event: int, time: int) -> Tried:
        """By how much the cost would change if the event had this time, and what would be violated then; nothing changes.

        Raises what `time` and `cost` raise.
        """
        event, time = index(event), index(time)
        change = self._session.by_call(lambda transport: transport.tried(event, time))
        before = self.cost() if change is None else 0
        with self.trial():
            self.time(event, time)
            return Tried(self.cost() - before if change is None else change, self.violations())

    def _question(self, event: Optional[int], activity: Optional[int]) -> Question:
        if (event is None) == (activity is None):
            raise WrongWords("prices are those of an event or of an activity")
        if event is not None:
            if index(event) not in self.network.windows:
                raise WrongWords(f"there is no event {event}")
            return OfEvent(index(event))
        known = self.network.activities.get(index(activity or 0))
        if known is None:
            raise WrongWords(f"there is no activity {activity}")
        return OfActivity(known)

    def _all(self, commands: Iterable[str]) -> None:
        """Makes commands, none of which may be refused. Raises the first refusal or fault."""
        for outcome in self.many(commands):
            if isinstance(outcome, (Refused, Fault)):
                raise outcome
