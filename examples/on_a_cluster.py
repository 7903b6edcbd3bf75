"""Evaluates many variants of one network in parallel: which spans, two minutes longer, give it a timetable?

usage: PYTHONPATH=python python3 examples/on_a_cluster.py [FOLDER]
       PYTHONPATH=python python3 examples/on_a_cluster.py FOLDER tcp://SCHEDULER:8786
       PYTHONPATH=python mpiexec -n 8 python3 -m mpi4py.futures examples/on_a_cluster.py FOLDER mpi
"""

import sys

from pespbench import Bench, Infeasible, Names, variants


def over_dask(scheduler):
    """The workers of a Dask cluster, each of which has the package and, at the same path, the program."""
    from distributed import Client

    return Client(scheduler).get_executor()


def over_mpi():
    """The processes of an MPI job, with the same package and program."""
    from mpi4py.futures import MPIPoolExecutor

    return MPIPoolExecutor()


def main(folder="examples/two-changes", where=None):
    """Without a cluster, the processors of this machine evaluate the variants."""
    executor = None if where is None else over_mpi() if where == "mpi" else over_dask(where)
    with Bench.load(folder) as bench:
        names = Names(bench.labels, bench.network.activities)
        activities = list(bench.network.activities.values())
        lists = [[f"span {each.number} {each.lower} {each.upper + 2}"] for each in activities]
        for activity, found in zip(activities, variants(bench, lists, executor=executor)):
            told = "no timetable" if isinstance(found, Infeasible) else f"cost {found.cost}"
            print(f"{names.activity(activity.number)}, up to {activity.upper + 2} minutes: {told}")


if __name__ == "__main__":
    main(*sys.argv[1:])
