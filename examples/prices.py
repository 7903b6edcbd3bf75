"""Asks the Python package what each minute of an event costs on an hourly line, and for the nearest timetable to its own.

usage: PYTHONPATH=python python3 examples/prices.py [PROGRAM [FOLDER]]
"""

import sys

from pespbench import Bench


def main(program="pespbench", folder="examples/hourly-line"):
    """Prints what each possible departure of the branch train costs, and what moves if it leaves at 37."""
    with Bench.open(f"{folder}/activities", times=f"{folder}/times", program=program) as bench:
        bench.fix(1, 3)
        for price in bench.prices(event=5).found().values():
            if not price.is_impossible:
                print(f"departure at {price.value}: cost {price.cost}")
        near = bench.near(held={5: 37}).found()
        print(f"with 37: {near.minutes} minutes in all, cost {near.cost}, moves {near.moves}")
        bench.take(near)


if __name__ == "__main__":
    main(*sys.argv[1:])
