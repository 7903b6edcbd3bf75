"""Variants and parts over Dask: a scheduler and two workers on this machine. It needs Debian's python3-distributed."""

from __future__ import annotations

import importlib
import importlib.util
import logging
import os
import signal
import subprocess
import sys
import unittest
from typing import Any

from pespbench import optimum_in_parts, variants
from tests.common import EXAMPLES, PROGRAM, TOP
from tests.test_variants import Small, at_step, drawn_lists, one_by_one

distributed: Any = importlib.import_module("distributed") if importlib.util.find_spec("distributed") else None


@unittest.skipIf(distributed is None, "Dask is not installed")
class Dask(Small):
    """The executor of a Dask client."""

    def setUp(self) -> None:
        super().setUp()
        logging.getLogger("distributed").setLevel(logging.CRITICAL)
        how: "dict[str, Any]" = {"silence_logs": logging.CRITICAL, "n_workers": 2, "threads_per_worker": 1, "processes": True, "dashboard_address": None}
        self.cluster = distributed.LocalCluster(host="127.0.0.1", local_directory=str(self.folder), **how)
        self.addCleanup(self.cluster.close)
        self.client = distributed.Client(self.cluster)
        self.addCleanup(self.client.close)

    def end_one(self) -> None:
        os.kill(next(iter(self.client.run(os.getpid).values())), signal.SIGKILL)

    def test_a_worker_is_ended(self) -> None:
        lists = drawn_lists(1_000)
        with self.small(1) as bench, self.client.get_executor() as executor:
            wanted = one_by_one(bench, lists)
            with at_step(300, self.end_one):
                self.assertEqual(variants(bench, lists, executor=executor), wanted)

    def test_parts(self) -> None:
        with self.client.get_executor() as executor:
            for seed in range(20):
                with self.small(seed) as bench:
                    self.assertEqual(optimum_in_parts(bench, executor=executor, ranges=4).text(), bench.optimum().text())

    def test_the_example(self) -> None:
        """examples/on_a_cluster.py prints the same with Dask as with this machine's processors."""
        environment = {**os.environ, "PYTHONPATH": str(TOP / "python"), "PESPBENCH": PROGRAM}
        command = [sys.executable, str(EXAMPLES / "on_a_cluster.py"), str(EXAMPLES / "two-changes")]
        told = []
        for more in [[], [self.cluster.scheduler_address]]:
            told.append(subprocess.run([*command, *more], env=environment, stdout=subprocess.PIPE, timeout=100).stdout)
        self.assertEqual(told[0].count(b"\n"), 9)
        self.assertEqual(told[0], told[1])


if __name__ == "__main__":
    unittest.main()
