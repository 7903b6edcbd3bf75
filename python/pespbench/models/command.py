"""The subcommands `export` and `import`."""

from __future__ import annotations

import argparse

from pespbench.faults import WrongWords
from pespbench.forms import add_form, in_form, table_of
from pespbench.models.formulations import FORMULATIONS
from pespbench.models.solution import timetable_of
from pespbench.opening import add_network, open_network
from pespbench.replies import text_of
from pespbench.session import Outcome
from pespbench.terminal import tell
from pespbench.writing import write_text


def add_parser(subparsers: argparse._SubParsersAction[argparse.ArgumentParser]) -> None:
    """Adds the parsers of both subcommands."""
    parser = subparsers.add_parser("export", help="the network as an integer program, for a solver")
    add_network(parser)
    parser.add_argument("--lp", metavar="FILE", help="write it in the LP format")
    parser.add_argument("--mps", metavar="FILE", help="write it in the free MPS format (glpsol --freemps)")
    add_formulation(parser)
    parser.set_defaults(run=run)
    back = subparsers.add_parser("import", help="a solver's timetable, checked by the program")
    add_network(back)
    back.add_argument("--sol", metavar="FILE", required=True, help="the solution file of cbc, glpsol -o, HiGHS or Gurobi")
    add_formulation(back)
    back.add_argument("--save", metavar="FOLDER", help="write the network with the timetable")
    add_form(back)
    back.set_defaults(run=run_back)


def add_formulation(parser: argparse.ArgumentParser) -> None:
    """Adds the option that chooses the formulation."""
    both = "whole periods for each cycle of a narrow basis, or a time for each event [default: cycles]"
    parser.add_argument("--by", choices=FORMULATIONS, default="cycles", help=both)


def run(words: argparse.Namespace) -> int:
    """Writes the requested files. Raises WrongWords if there is none."""
    if words.lp is None and words.mps is None:
        raise WrongWords("export wants --lp FILE or --mps FILE")
    with open_network(words) as bench:
        model = FORMULATIONS[words.by].model(bench.network)
    if words.lp is not None:
        write_text(words.lp, model.lp())
    if words.mps is not None:
        write_text(words.mps, model.mps())
    return 0


def run_back(words: argparse.Namespace) -> int:
    """Prints what the timetable violates and costs, like the program; the status is 1 if it violates something."""
    with open_network(words) as bench:
        bench.set_times(timetable_of(words.sol, bench.network, words.by))
        violations = bench.violations()
        answers: dict[str, Outcome] = {"violations": violations, "cost": bench.cost()}
        for name, answer in answers.items():
            tell(in_form(words.form, table_of(answer), text_of(name, answer)))
        if words.save:
            bench.save(words.save)
    return 1 if len(violations) else 0
