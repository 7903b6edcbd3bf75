"""The sources of the workbench, compiled as plain Rust by tools/search_without_proof, return the program's replies."""

import random
import shutil
from typing import List

from tests.harness import TOP, Suite, rows_of, run, within
from tests.solvers import drawn_network

NETWORKS = 40
OPTIMUM = b"optimum\n"


@within(240)
def without_proof(suite: Suite) -> None:
    if not shutil.which("rustc"):
        print("  tools/search_without_proof was not tried: rustc is not here")
        return
    workbench = suite.folder / "workbench"
    came = run([TOP / "tools/search_without_proof", "--workbench", workbench], seconds=200)
    suite.note("tools/search_without_proof --workbench", {"status": 0, "standard output": b"", "standard error": b""}, came)
    for number in range(NETWORKS if workbench.exists() else 0):
        period, rows, fixed = drawn_network(random.Random(number))
        given = {"activities": rows_of(rows), "fixed": rows_of(fixed)}
        paths = {name: suite.file(f"{name}.{number}", content) for name, content in given.items()}
        words: List[object] = ["--period", period, paths["activities"], "--fixed", paths["fixed"]]
        wanted = run([suite.program, *words], given=OPTIMUM)
        suite.note(f"without a proof, drawn network {number}", wanted, run([workbench, *words], given=OPTIMUM))


GROUPS = [without_proof]
