"""A solver's solution, from its file: cbc, glpsol (`-o`), HiGHS and Gurobi."""

from __future__ import annotations

import os
import re
from typing import Dict, Iterator, List, NamedTuple, Optional, Pattern, Union

from pespbench.faults import FileFault, WrongWords
from pespbench.models.formulations import FORMULATIONS, Formulation
from pespbench.network import Network
from pespbench.records import content

Path = Union[str, "os.PathLike[str]"]
# Digits, and blanks, match in only one way: a pattern with two ways tries each of them again in a long line.
NUMBER = r"([+-]?(?:[0-9]+(?:\.[0-9]*)?|\.[0-9]+)(?:[eE][+-]?[0-9]+)?)"
# A solver's whole number may differ from one by this.
TOLERANCE = 1e-3


class Form(NamedTuple):
    """The first line of a solver's file, the line above its columns, the one below, and a column with its name and value."""

    beginning: Pattern[str]
    above: Optional[Pattern[str]]
    below: Optional[Pattern[str]]
    column: Pattern[str]


PLAIN = re.compile(rf"(\S+)\s+{NUMBER}\s*$")
CBC = Form(re.compile(".* - objective value "), None, None, re.compile(rf"(?:\*\*)?\s*[0-9]+\s+(\S+)\s+{NUMBER}\s+{NUMBER}\s*$"))
GLPSOL = Form(
    re.compile("Problem:"), re.compile(r"\s*No\.\s+Column name"), re.compile(r"\s*$"),
    re.compile(rf"\s*[0-9]+\s+(\S+)\s+(?:(?:\*|B|N[LUFS])\s+)?{NUMBER}(?:\s|$)"),
)  # fmt: skip
HIGHS = Form(re.compile("Model status|# Primal solution values"), re.compile("# Columns"), re.compile("#"), PLAIN)
GUROBI = Form(re.compile("# (?:Solution for model|Objective value)"), None, None, PLAIN)
FORMS = (CBC, GLPSOL, HIGHS, GUROBI)
# The first lines of a file without a solution.
NOTHING = re.compile(r"(?:Integer )?infeasible|Status: +(?:INTEGER )?(?:EMPTY|UNDEFINED|INFEASIBLE)|.*no integer solution|None$", re.IGNORECASE)
FIRST_LINES = 8


def timetable_of(path: Path, network: Network, formulation: str = "cycles") -> Dict[int, int]:
    """The timetable of a solver's file, for the model of the network in this formulation.

    Whether it meets everything is not checked here. Raises OSError, FileFault and, for another formulation, WrongWords.
    """
    how = formulation_of(formulation)
    model, values = how.model(network), {}
    columns, rows = {column.name for column in model.columns}, {row.name for row in model.rows}
    for name, value in read_solution(path).items():
        if name not in columns | rows:
            raise FileFault(os.fspath(path), None, f"{name[:40]!r} is not in the model of this network by {formulation}")
        if name in columns and abs(value - round(value)) > TOLERANCE:
            raise FileFault(os.fspath(path), None, f"{name} is {value}, and not whole: the solver has to end at a corner")
        values[name] = round(value)
    return how.times(network, values)


def formulation_of(name: str) -> Formulation:
    """The formulation of a name. Raises WrongWords for another name."""
    if name not in FORMULATIONS:
        raise WrongWords(f"a formulation is `cycles` or `times`, and not {name!r}")
    return FORMULATIONS[name]


def read_solution(path: Path) -> Dict[str, float]:
    """The values of a solver's file by name. Raises OSError, and FileFault if it is not such a file, or has no solution."""
    lines = content(path).decode("utf-8", "replace").splitlines()
    form = next((form for form in FORMS if lines and form.beginning.match(lines[0])), None)
    if form is None:
        raise FileFault(os.fspath(path), None, "it is no solution as cbc, glpsol (-o), HiGHS and Gurobi write them")
    nothing = next(filter(NOTHING.match, lines[:FIRST_LINES]), None)
    if nothing is not None:
        raise FileFault(os.fspath(path), None, f"the solver found no timetable: {nothing[:80]}")
    found = filter(None, map(form.column.match, columns_in(lines, form)))
    return {each[1]: float(each[2]) for each in found}


def columns_in(lines: List[str], form: Form) -> Iterator[str]:
    """The lines between the one above the columns and the one below."""
    is_within = form.above is None
    for line in lines:
        if is_within and form.below is not None and form.below.match(line):
            return
        if is_within:
            yield line
        is_within = is_within or form.above is not None and form.above.match(line) is not None
