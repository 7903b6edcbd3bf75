"""A network as an integer program, for other solvers: its files, and the timetables of their solutions.

| Formulation | Columns |
|---|---|
| `times` | `t1`: the time of event 1; `p2`: the whole periods of activity 2; `y2`: its slack |
| `cycles` | `y2`: the slack of activity 2; `w1`: how far event 1 is after the first time of its window; `z3`: the whole periods of a cycle |

The objective is the cost of the program. Slacks are not declared as integers: at a corner, where solvers end, they are whole.
"""

from pespbench.models.basis import basis_of
from pespbench.models.command import add_parser
from pespbench.models.formulations import FORMULATIONS, Formulation, by_cycles, by_times
from pespbench.models.model import Column, Model, Row
from pespbench.models.solution import read_solution, timetable_of

__all__ = [
    "FORMULATIONS", "Column", "Formulation", "Model", "Row", "add_parser", "basis_of", "by_cycles", "by_times", "read_solution", "timetable_of",
]  # fmt: skip
