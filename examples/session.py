"""Drives the program with the Python package, and searches for the shortest possible changes on an hourly line.

usage: PYTHONPATH=python python3 examples/session.py [PROGRAM [ACTIVITIES]]
"""

import sys

from pespbench import Bench, Infeasible


def main(program="pespbench", network="examples/hourly-line/activities"):
    """How short can both changes at Benton be if the branch train turns at Dale within 8 minutes?"""
    with Bench.open(network, program=program) as bench:
        bench.fix(1, 3)
        bench.span(42, 6, 8)
        for longest in range(4, 60):
            bench.many([f"span 31 4 {longest}", f"span 32 4 {longest}"])
            found = bench.optimum()
            if not isinstance(found, Infeasible):
                print(f"changes of 4 to {longest} minutes: cost {found.cost}, times {found.times}")
                break
            print(f"changes of 4 to {longest} minutes: infeasible")


if __name__ == "__main__":
    main(*sys.argv[1:])
