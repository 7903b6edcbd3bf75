"""The cost of the optimum of random regions, their pieces, and other networks; and that of other solvers, if installed."""

from pathlib import Path
from typing import Iterator, List, NamedTuple, Optional, Sequence, Tuple

from measuring.drawn import Drawn, networks
from measuring.limited import Ran, run_limited, shown
from measuring.network import text_of
from measuring.solvers import Figures, columns, solved, stands_at

SECONDS = 60
NODES = 1_000
# The nodes of a step of a search that does not end, and the seconds after which its state is reported.
STEP, MOMENTS = 500, [10, 60]


class Asked(NamedTuple):
    """A network in files, and the programs to run."""

    programs: Sequence[Path]
    folder: Path
    network: Drawn
    seconds: int

    def ask(self, program: Path, line: str, most: int) -> Ran:
        """The program's reply to one line."""
        activities, times, lines = (self.folder / name for name in ["activities", "fixed", "lines"])
        activities.write_text(text_of(self.network.rows))
        times.write_text(text_of(self.network.fixed))
        lines.write_text(f"{line}\n")
        words = [program, "--period", self.network.period, activities, "--fixed", times]
        return run_limited(words, lines, self.folder / "memory", most)

    def tried(self) -> Ran:
        return self.ask(self.programs[-1], f"try {NODES}", self.seconds)

    def least(self) -> Optional[Ran]:
        """The seconds to the least cost alone, if the program is the workbench of tools/search_without_proof, which reports it."""
        ran = self.ask(self.programs[-1], "least", self.seconds)
        return None if ran.printed.startswith("fault") else ran

    def optima(self, least: Optional[Ran]) -> List[Ran]:
        """Each program's seconds for the first timetable of least cost; the last one is skipped if the least cost takes too long."""
        ran = [self.ask(program, "optimum", self.seconds) for program in self.programs[:-1]]
        takes_too_long = least is not None and least.seconds is None
        return [*ran, Ran("", None, 0) if takes_too_long else self.ask(self.programs[-1], "optimum", self.seconds)]

    def stands(self) -> Iterator[Tuple[int, str]]:
        """The best cost and the bound at some moments, which that workbench reports too: its last report before each."""
        moments = [moment for moment in MOMENTS if moment <= self.seconds]
        printed = self.ask(self.programs[-1], f"steps {STEP}", max(moments, default=0) + 1).printed
        steps = [line.split()[1:] for line in printed.splitlines() if line.startswith("step")]
        for moment in moments:
            _, best, bound = next((step for step in reversed(steps) if float(step[0]) <= moment), ["", "none", "0"])
            yield moment, f"{best}, {bound}"


def answer_of(*told: Optional[Ran]) -> str:
    """The least cost that some run returns, or that there is none."""
    for words in (ran.printed.split() for ran in told if ran):
        if words[:1] in (["optimum"], ["least"]):
            return "infeasible" if words[1] == "none" else words[1]
        if words[:1] == ["infeasible"]:
            return words[0]
    return "-"


def solver_figures(asked: Asked, formulations: Sequence[str]) -> Figures:
    network = asked.network
    figures: Figures = {}
    for solver, formulation in columns(formulations) if network.is_for_solvers else []:
        figures[solver, formulation] = solved(solver, formulation, asked.folder, network.rows, network.fixed, network.period, asked.seconds)
    return figures


def print_stands(asked: Asked, figures: Figures) -> None:
    """The state of a search that did not end at some moments, compared with cbc's."""
    log = next((figure.log for (solver, _), figure in figures.items() if solver == "cbc"), None)
    for moment, ours in asked.stands():
        print(f"    best and bound after {moment} s: {ours}" + ("" if log is None else f"; cbc {stands_at(log, moment)}"), flush=True)


def print_network(asked: Asked, formulations: Sequence[str]) -> None:
    """One row, with lines under it if the search did not end or if a solver returns another cost."""
    network, most = asked.network, asked.seconds
    least = asked.least() if network.is_searched else None
    optima = asked.optima(least) if network.is_searched else []
    tried = asked.tried()
    told = optima[-1] if optima else tried
    answer = answer_of(told, least)
    figures = solver_figures(asked, formulations)
    cells = [shown(least.seconds, most) if least else "-", *(shown(ran.seconds, most) for ran in optima)]
    cells += ["-"] * (len(asked.programs) - len(optima)) + [shown(tried.seconds, most)]
    cells += [shown(figure.seconds, most) for figure in figures.values()]
    events = len({event for row in network.rows for event in row[1:3]})
    print(f"{network.name:<52} {events:>6} {len(network.rows):>10} {answer:>10} {told.memory:>8}" + "".join(f" {cell:>13}" for cell in cells), flush=True)
    for (solver, formulation), figure in figures.items():
        if figure.answer not in (None, answer):
            print(f"    {solver} {formulation} tells {figure.answer}", flush=True)
    if least and told.seconds is None:
        print_stands(asked, figures)


def print_regions(programs: Sequence[Path], folder: Path, part: str, formulations: Sequence[str], seconds: int) -> None:
    """The figures of the networks whose names have the part, with those of the installed solvers if requested."""
    asked_for = columns(formulations)
    names = ["least", *["before", "first"][-len(programs) :], f"try {NODES}", *map(" ".join, asked_for)]
    missing = "; neither cbc nor glpsol is here" if formulations and not asked_for else ""
    print(f"\nseconds of a processor: least cost, first timetable of it, at most {seconds}{missing}")
    print(f"{'network':<52} {'events':>6} {'activities':>10} {'answer':>10} {'peak kB':>8}" + "".join(f" {name:>13}" for name in names))
    for network in networks():
        if part in network.name:
            print_network(Asked(programs, folder, network, seconds), formulations)
