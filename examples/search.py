"""Searches for the best timetable of an hourly line for ten seconds with the Python package, and reports its progress.

usage: PYTHONPATH=python python3 examples/search.py [PROGRAM [ACTIVITIES]]
"""

import sys

from pespbench import Bench


def main(program="pespbench", network="examples/hourly-line/activities"):
    """Prints cost, lower bound and gap after each step, and the timetable at the end."""
    with Bench.open(network, program=program) as bench:
        for progress in bench.search(10.0):
            print(progress.cost, progress.lower_bound, progress.gap)
    print(progress.times)


if __name__ == "__main__":
    main(*sys.argv[1:])
