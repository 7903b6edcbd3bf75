"""The commands, as docs/FORMATS.md and docs/RULES.md define them, computed here without the program.

`reply` returns the one legal reply to a line; to `try N` several are legal, and `may_try` returns whether a given one is.
"""

from typing import Dict, Iterable, List, Mapping, Optional, Sequence, Set, Tuple

from tests.network import Network, Refused
from tests.parsing import Fault, parse
from tests.rules import Row, Times


def listed(name: str, lines: Sequence[str]) -> List[str]:
    return [f"{name} {len(lines)}", *lines]


def window_line(event: int, first: int, length: int) -> str:
    """The line of a script that gives an event its window."""
    return f"fix {event} {first}" if length == 1 else f"window {event} {first} {length}"


class Model(Network):
    """A network and a working timetable."""

    def __init__(self, period: int, activities: Iterable[Row] = (), fixed: Optional[Times] = None, times: Optional[Times] = None) -> None:
        super().__init__(period, activities, fixed)
        self.times = {event: time % period for event, time in (times or {}).items() if event in self.events}

    def reply(self, line: bytes) -> List[str]:
        """The lines of the reply to a line: the one legal reply, and for `try` the optimum."""
        try:
            command = parse(line)
            return self.answer(*command) if command else []
        except Fault as fault:
            return [f"fault {fault}"]
        except Refused as refusal:
            return [f"refused {refusal}"]

    def answer(self, name: str, numbers: Sequence[int]) -> List[str]:
        return getattr(self, name.replace(" ", "_").replace("try", "optimum_within"))(*numbers) or ["ok"]

    def drop_event(self, event: int) -> None:
        super().drop_event(event)
        self.times.pop(event, None)

    # The working timetable

    def untimed(self) -> None:
        for event in sorted(self.events):
            if event not in self.times:
                raise Refused(f"11 event {event} has no time")

    def time(self, event: int, time: int) -> None:
        self.no_event(event)
        self.late(time)
        self.times[event] = time

    def untime(self, event: int) -> None:
        self.no_event(event)
        if event not in self.times:
            raise Refused(f"11 event {event} has no time")
        del self.times[event]

    def adopt(self) -> None:
        best = self.best()
        if best is None:
            raise Refused("12 infeasible")
        self.times = best[1]

    # Answers

    def tensions(self) -> List[str]:
        self.untimed()
        lines = []
        for activity, row in sorted(self.activities.items()):
            slack = self.slack(row, self.times)
            lines.append(f"{activity} {row[2] + slack} {slack}")
        return listed("tensions", lines)

    def violations(self) -> List[str]:
        self.untimed()
        activities = sorted(self.activities.items())
        unmet = [f"activity {activity}" for activity, row in activities if not self.met(row, self.times)]
        moved = [f"event {event}" for event in sorted(self.windows) if not self.admits(event, self.times[event])]
        return listed("violations", unmet + moved)

    def cost(self) -> List[str]:
        self.untimed()
        return [f"cost {self.cost_of(self.times)}"]

    def domain(self, event: int) -> List[str]:
        self.no_event(event)
        return [self.row(event, self.rows())]

    def domains(self) -> List[str]:
        rows = self.rows()
        return listed("domains", [self.row(event, rows) for event in sorted(self.events)])

    def row(self, event: int, rows: Mapping[int, Set[int]]) -> str:
        return " ".join([f"{event}:", *map(str, sorted(rows[event]))])

    def optimum(self) -> List[str]:
        best = self.best()
        return ["infeasible"] if best is None else self.timetable("optimum", *best)

    def optimum_within(self, _limit: int) -> List[str]:
        return self.optimum()

    def timetable(self, name: str, cost: int, times: Mapping[int, int]) -> List[str]:
        return [f"{name} {cost} {len(times)}", *(f"{event} {time}" for event, time in sorted(times.items()))]

    def dump(self) -> List[str]:
        lines = [f"add event {event}" for event in sorted(self.events)]
        lines += [window_line(event, *window) for event, window in sorted(self.windows.items())]
        lines += [" ".join(map(str, ["add activity", name, *row])) for name, row in sorted(self.activities.items())]
        return [f"# period {self.period} lines {len(lines)}", *lines]

    # The legal replies to `try`

    def reached(self, limit: int) -> Tuple[List[Dict[int, int]], bool]:
        """The timetables that meet everything within this many nodes of the tree, and whether that is the whole tree."""
        found: List[Dict[int, int]] = []
        nodes = 0
        events = sorted(self.events)
        pushed: Dict[int, int] = {}

        def walk() -> bool:
            nonlocal nodes
            rows = self.rows(pushed)
            if not all(rows.values()):
                return True
            if len(pushed) == len(events):
                found.append(dict(pushed))
                return True
            event = events[len(pushed)]
            for time in sorted(rows[event]):
                if nodes == limit:
                    return False
                nodes += 1
                pushed[event] = time
                is_whole = walk()
                del pushed[event]
                if not is_whole:
                    return False
            return True

        is_whole = walk()
        return found, is_whole

    def may_try(self, limit: int, reply: Sequence[str]) -> bool:
        """Whether a reply to `try` is a legal one."""
        if not reply[0].startswith("stopped"):
            return reply == self.optimum()
        found, is_whole = self.reached(limit)
        if is_whole:
            return False
        if reply == ["stopped none"]:
            return not found
        times = {event: time for event, time in (map(int, line.split()) for line in reply[1:])}
        if times.keys() != self.events or not self.is_member(times):
            return False
        cost = self.cost_of(times)
        cheaper = any(self.cost_of(other) < cost for other in found)
        return reply == self.timetable("stopped", cost, times) and not cheaper
