"""The cost of other solvers on a network as an integer program, and their results."""

import re
import shutil
from pathlib import Path
from typing import Dict, List, Match, NamedTuple, Optional, Pattern, Sequence, Tuple

from measuring.limited import run_limited
from pespbench import Activity, Network, Window
from pespbench.models import by_cycles, by_times
from tests.rules import Row

# A solver's options, besides its limit.
MORE_SECONDS = 10
INFEASIBLE = re.compile(r"proven infeasible|Problem is infeasible|NO (PRIMAL|INTEGER|DUAL) FEASIBLE|INTEGER EMPTY")
LEAST = re.compile(r"Result - Optimal solution found\n+Objective value: +(\S+)|Optimal - objective value (\S+)|Status: +(?:INTEGER )?OPTIMAL\nObjective: +cost = (\S+)")
# cbc's log: a better timetable, and the state of the search, each with the seconds.
BETTER = re.compile(r"^Cbc00(?:04|12|16)I Integer solution of (\S+) found .*\((\S+) seconds\)$", re.MULTILINE)
STANDS = re.compile(r"^Cbc0010I After .* best possible (\S+) \((\S+) seconds\)$", re.MULTILINE)


class Solved(NamedTuple):
    """The seconds, or none if it did not end; the least cost, or `infeasible`, if it prints one; its whole output."""

    seconds: Optional[float]
    answer: Optional[str]
    log: str


def network_of(rows: Sequence[Row], fixed: Sequence[Tuple[int, int]], period: int) -> Network:
    """The network of rows of activities and of fixed times."""
    windows: Dict[int, Optional[Window]] = {event: None for row in rows for event in row[1:3]}
    windows.update({event: Window(time) for event, time in fixed})
    return Network(period, windows, {row[0]: Activity(*row) for row in rows})


FORMULATIONS = {"cycles": by_cycles, "plain": by_times}


def words_of(solver: str, model: Path, seconds: int) -> List[str]:
    # A limit of glpsol's own would be clock time: it only has that of run_limited.
    if solver == "cbc":
        return ["cbc", str(model), "sec", str(seconds), "solve", "quit"]
    return ["glpsol", "--lp", str(model), "-o", "/dev/stdout"]


def number(text: str) -> str:
    """A cost without a point if it is whole."""
    return f"{float(text):.2f}".rstrip("0").rstrip(".")


def answer_of(log: str) -> Optional[str]:
    if INFEASIBLE.search(log):
        return "infeasible"
    found = LEAST.search(log)
    return number(next(filter(None, found.groups()))) if found else None


def solved(solver: str, formulation: str, folder: Path, rows: Sequence[Row], fixed: Sequence[Tuple[int, int]], period: int, seconds: int) -> Solved:
    """One solver with one formulation. Writing the model is not included."""
    model = folder / "model.lp"
    model.write_text(FORMULATIONS[formulation](network_of(rows, fixed, period)).lp())
    ran = run_limited(words_of(solver, model, seconds), "/dev/null", folder / "memory", seconds + MORE_SECONDS)
    ended = ran.seconds is not None and ran.seconds <= seconds - 1
    return Solved(ran.seconds if ended else None, answer_of(ran.printed) if ended else None, ran.printed)


def last_before(lines: Pattern[str], log: str, seconds: float) -> Optional[Match[str]]:
    found = [line for line in lines.finditer(log) if float(line[2]) <= seconds]
    return found[-1] if found else None


def stands_at(log: str, seconds: float) -> str:
    """The best cost and the bound in cbc's log after this many seconds."""
    best, bound = last_before(BETTER, log, seconds), last_before(STANDS, log, seconds)
    return f"{number(best[1]) if best else 'none'}, {number(bound[1]) if bound else 'none'}"


def solvers_here() -> List[str]:
    return [solver for solver in ("cbc", "glpsol") if shutil.which(solver)]


def columns(formulations: Sequence[str]) -> List[Tuple[str, str]]:
    """Each installed solver with each of the formulations."""
    return [(solver, formulation) for formulation in formulations for solver in solvers_here()]


Figures = Dict[Tuple[str, str], Solved]
