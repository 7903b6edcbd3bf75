"""The commands of the program as methods, with their arguments and answers."""

from __future__ import annotations

from dataclasses import astuple
from operator import index
from typing import Dict, Type, TypeVar, Union

from pespbench.answers import Answer, Domain, Found, Infeasible, Optimum, Stopped, Tension, Violations
from pespbench.faults import BadReply
from pespbench.network import Activity

Kind = TypeVar("Kind")


def line(name: str, *numbers: int) -> str:
    """A command line of whole numbers, also numpy's. Raises TypeError for any other value."""
    return " ".join([name, *(str(index(number)) for number in numbers)])


class Commands:
    """A method for each command, over `ask`.

    Events and activities are numbers from 0 to 999,999,999, times and bounds whole units of time. Each raises what `ask` does:
    Refused if the program refuses the command, Fault if a number is out of range, Ended if the program ends, BadReply if it
    writes anything other than a reply; and TypeError for a value that is not a whole number.
    """

    def ask(self, command: str) -> Answer:
        """The answer to a command line: None for an edit. Raises ValueError for a line that has no reply."""
        raise NotImplementedError

    # Edits.

    def add_event(self, event: int) -> None:
        """Adds event `event`, with neither window nor time."""
        self._do(line("add event", event))

    def drop_event(self, event: int) -> None:
        """Removes the event, with its window and its time. No activity may lead from it or to it."""
        self._do(line("drop event", event))

    def fix(self, event: int, time: int) -> None:
        """Requires the event at `time`, below the period; replaces an earlier window."""
        self._do(line("fix", event, time))

    def window(self, event: int, first: int, length: int) -> None:
        """Requires the event at `first` or one of the `length` - 1 times after it, modulo the period."""
        self._do(line("window", event, first, length))

    def unfix(self, event: int) -> None:
        """Removes the event's window, of any length."""
        self._do(line("unfix", event))

    def add_activity(self, activity: Activity) -> None:
        """Adds the activity. Its ends must be events already."""
        self._do(line("add activity", *astuple(activity)))

    def drop_activity(self, activity: int) -> None:
        """Removes the activity."""
        self._do(line("drop activity", activity))

    def span(self, activity: int, lower: int, upper: int) -> None:
        """Sets the activity's span to `lower` to `upper` units of time."""
        self._do(line("span", activity, lower, upper))

    def weight(self, activity: int, weight: int) -> None:
        """Sets the cost of each unit of time above the activity's lower bound."""
        self._do(line("weight", activity, weight))

    def ends(self, activity: int, from_event: int, to_event: int) -> None:
        """Makes the activity lead from `from_event` to `to_event`."""
        self._do(line("ends", activity, from_event, to_event))

    # The working timetable.

    def time(self, event: int, time: int) -> None:
        """Sets the event's time, below the period, in the working timetable."""
        self._do(line("time", event, time))

    def untime(self, event: int) -> None:
        """Removes the event's time from the working timetable."""
        self._do(line("untime", event))

    def adopt(self) -> Optimum:
        """Makes the optimum the working timetable, and returns it. Raises Refused (12) if there is none."""
        return self._is("adopt", Optimum)

    # Questions.

    def domain(self, event: int) -> Domain:
        """The times that the event can still have."""
        return self._is(line("domain", event), Domain)

    def domains(self) -> Dict[int, Domain]:
        """The times that each event can still have, by event, ascending."""
        return self._is("domains", dict)

    def tensions(self) -> Dict[int, Tension]:
        """The tension and slack of each activity in the working timetable, ascending. Raises Refused (11) if a time is missing."""
        return self._is("tensions", dict)

    def violations(self) -> Violations:
        """The violations of the working timetable. Raises Refused (11) if a time is missing."""
        return self._is("violations", Violations)

    def cost(self) -> int:
        """The cost of the working timetable: weight times slack, over all activities. Raises Refused (11) if a time is missing."""
        return self._is("cost", int)

    def optimum(self) -> Union[Optimum, Infeasible]:
        """The first timetable of least cost. It may take long; Ctrl-C ends it, and no accepted change is lost.

        Raises KeyboardInterrupt then.
        """
        found = self.ask("optimum")
        if isinstance(found, (Optimum, Infeasible)):
            return found
        raise BadReply(str(found))

    def attempt(self, nodes: int) -> Found:
        """The optimum, within at most `nodes` nodes of a search; `try` of the program."""
        return found_by(self.ask(line("try", nodes)))

    def dump(self) -> str:
        """The network as commands, below a line with the period and their number."""
        return self._is("dump", str)

    def _do(self, command: str) -> None:
        if self.ask(command) is not None:
            raise BadReply(f"an answer to {command}")

    def _is(self, command: str, kind: Type[Kind]) -> Kind:
        answer = self.ask(command)
        if not isinstance(answer, kind):
            raise BadReply(str(answer))
        return answer


def found_by(answer: Answer) -> Found:
    """The result of a search. Raises BadReply for any other answer."""
    if isinstance(answer, (Optimum, Infeasible, Stopped)):
        return answer
    raise BadReply(str(answer))
