"""Networks as integer programs: other solvers find the program's cost, and their output is read back."""

from __future__ import annotations

import random
import shutil
import subprocess
import unittest
from itertools import product
from pathlib import Path
from typing import Callable, Dict, List, Optional, Union
from unittest import mock

from pespbench import Activity, Bench, FileFault, Infeasible, Network, Optimum, Window
from pespbench.models import FORMULATIONS, read_solution, timetable_of
from pespbench.models.basis import MOST_WAYS
from tests.common import PROGRAM, SLOWER, Case, run_words

NETWORKS = 20
LIMIT = "pespbench.models.basis.MOST_WAYS"
# How each solver receives a model, and writes its result.
SOLVERS: Dict[str, Callable[[Path, Path], List[str]]] = {
    "cbc": lambda model, sol: ["cbc", str(model), "solve", "solution", str(sol), "quit"],
    "glpsol": lambda model, sol: ["glpsol", "--lp" if model.suffix == ".lp" else "--freemps", str(model), "-o", str(sol)],
}


def drawn(draw: random.Random) -> Network:
    """In parts, with loops, parallel activities, windows, long numbers and spans past the period. Most have a timetable."""
    period, events, is_met = draw.randint(2, 12), draw.randint(1, 5), draw.randrange(4) > 0
    numbers = draw.sample(range(9), events) if draw.randrange(4) else draw.sample(range(10**9 - 9, 10**9), events)
    times = {event: draw.randrange(period) for event in numbers}
    network = Network(period, dict.fromkeys(sorted(numbers)))
    for event in numbers:
        length = draw.randint(1, period)
        if not draw.randrange(3):
            network.windows[event] = Window((times[event] - draw.randrange(length)) % period, length)
    for number in range(draw.randint(1, 9)):
        first, last = draw.choice(numbers), draw.choice(numbers)
        width = draw.choice([0, draw.randrange(period), draw.randrange(2 * period)])
        tension = times[last] - times[first] if is_met else draw.randrange(period)
        lower = tension + draw.randint(-2, 2) * period - draw.randint(0, width)
        network.activities[number] = Activity(number, first, last, lower, lower + width, draw.choice([0, 1, draw.randint(0, 50)]))
    return network


class Solved(Case):
    """Random networks with each installed solver, in both formulations and both formats."""

    def test_drawn_networks(self) -> None:
        solvers = list(filter(shutil.which, SOLVERS))
        if not solvers:
            self.skipTest("neither cbc nor glpsol is here")
        for seed in range(NETWORKS // SLOWER):
            network = drawn(random.Random(seed))
            # For some, like for large ones, no narrow cycles are computed.
            with Bench.from_script(network.text(), program=PROGRAM) as bench, mock.patch(LIMIT, MOST_WAYS if seed % 4 else 0):
                best = bench.optimum()
                for place, (by, solver) in enumerate(product(FORMULATIONS, solvers)):
                    with self.subTest(seed=seed, by=by, solver=solver):
                        self.check(bench, best, self.found(solver, network, by, "lp" if (seed + place) % 2 else "mps"))

    def check(self, bench: Bench, best: Union[Optimum, Infeasible], times: Optional[Dict[int, int]]) -> None:
        """A solver's timetable costs the same as the program's and meets everything, or there is none."""
        self.assertEqual(times is None, isinstance(best, Infeasible))
        if times is not None:
            bench.set_times(times)
            self.assertEqual((bench.cost(), len(bench.violations())), (best.cost, 0))

    def found(self, solver: str, network: Network, by: str, form: str) -> Optional[Dict[int, int]]:
        """The timetable of the solver, or None if it finds none."""
        model, solution = self.folder / f"model.{form}", self.folder / "solution"
        written = FORMULATIONS[by].model(network)
        model.write_text(written.lp() if form == "lp" else written.mps())
        solution.unlink(missing_ok=True)
        told = subprocess.run(SOLVERS[solver](model, solution), capture_output=True, text=True, check=False)
        try:
            return timetable_of(solution, network, by)
        except FileFault as fault:
            self.assertIn("found no timetable", str(fault), told.stdout)
            return None


CYCLES = {"y1": 1.0, "y2": 2.0, "z0": 1.0}
# The two trains by cycles, as each solver writes its solution.
WRITTEN = {
    "cbc": "Optimal - objective value 4.00000000\n      0 y1        1        1\n      1 y2    2    0\n      2 z0     1     10\n",
    "HiGHS": "Model status\nOptimal\n\n# Primal solution values\nFeasible\nObjective 4\n# Columns 3\ny1 1\ny2 2\nz0 1\n"
    "# Rows 1\nc0 -7\n\n# Dual solution values\nFeasible\n# Columns 3\ny1 0\ny2 -1\nz0 0\n",
    "Gurobi": "# Solution for model cost\n# Objective value = 4\ny1 1\ny2 1.9999999999\nz0 1e+00\n",
    "glpsol": "Problem:    pespbench\nRows:       1\nColumns:    3 (1 integer, 1 binary)\nNon-zeros:  3\nStatus:     INTEGER OPTIMAL\n"
    "Objective:  cost = 4 (MINimum)\n\n   No.   Row name        Activity     Lower bound   Upper bound\n------ ------------    -------------\n"
    "     1 c0                         -7            -7             = \n\n   No. Column name       Activity     Lower bound   Upper bound\n"
    "------ ------------    ------------- ------------- -------------\n     1 y1                          1             0             2 \n"
    "     2 y2                          2             0             2 \n     3 z0           *              1             1             = \n"
    "\nInteger feasibility conditions:\n",
}
NOTHING = [
    "Infeasible - objective value 0.00000000\n      0 y1   1   0\n",
    "Model status\nInfeasible\n\n# Primal solution values\nNone\n",
    "Problem:\nRows:       1\nColumns:    3\nNon-zeros:  3\nStatus:     INTEGER EMPTY\n",
    "Stopped on time (no integer solution - continuous used) - objective value 3.5\n",
]


class Files(Case):
    """Solvers' outputs, and other texts."""

    def setUp(self) -> None:
        super().setUp()
        self.path = self.folder / "solution"
        with self.two_trains() as bench:
            self.network = bench.network.copy()

    def told(self, text: str, by: str = "cycles") -> Dict[int, int]:
        """The timetable of a file."""
        self.path.write_text(text)
        return timetable_of(self.path, self.network, by)

    def test_forms(self) -> None:
        for solver, text in WRITTEN.items():
            with self.subTest(solver=solver):
                self.assertEqual(self.told(text), {1: 0, 2: 4})
                self.assertEqual({name: round(value, 6) for name, value in read_solution(self.path).items() if name != "c0"}, CYCLES)

    def test_faults(self) -> None:
        wrong = {"": "is no solution", "y1 = 1\n": "is no solution", WRITTEN["cbc"].replace("y2", "t2"): "'t2' is not in the model"}
        wrong.update({WRITTEN["Gurobi"].replace("y1 1", "y1 0.5"): "y1 is 0.5", **dict.fromkeys(NOTHING, "found no timetable")})
        for text, told in wrong.items():
            with self.subTest(text=text[:40]), self.assertRaisesRegex(FileFault, told):
                self.told(text)

    def test_words(self) -> None:
        best = {1: 0, 2: 4}
        words = [str(self.folder / "network"), f"--program={PROGRAM}"]
        with self.two_trains() as bench:
            bench.save(words[0])
        self.assertEqual(run_words("export", *words, "--lp", str(self.folder / "lp"), "--mps", str(self.folder / "mps")), (0, ""))
        model = FORMULATIONS["cycles"].model(self.network)
        self.assertEqual([(self.folder / name).read_text() for name in ("lp", "mps")], [model.lp(), model.mps()])
        self.path.write_text(WRITTEN["cbc"])
        told = run_words("import", *words, "--sol", str(self.path), "--save", words[0])
        self.assertEqual(told, (0, "violations 0\ncost 4\n"))
        with Bench.load(words[0], program=PROGRAM) as bench:
            self.assertEqual((bench.times, bench.optimum()), (best, Optimum(4, best)))
        self.path.write_text(WRITTEN["cbc"].replace("y1        1", "y1        0"))
        self.assertEqual(run_words("import", *words, "--sol", str(self.path)), (1, "violations 1\nactivity 2\ncost 3\n"))


if __name__ == "__main__":
    unittest.main()
