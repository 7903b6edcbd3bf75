"""The random cases of the definitions: the prover's files are those that tools/draw_cases makes."""

import re
import sys
from pathlib import Path

from cases.files import texts
from tests.harness import TOP, Suite, run


def drawn_cases(suite: Suite) -> None:
    made = texts()
    there = {str(path.relative_to(TOP)): path.read_text() for path in TOP.glob("crates/*/proofs/DrawnCases.antt")}
    suite.note("the files of drawn cases", {"names": sorted(made)}, {"names": sorted(there)})
    for name in sorted(made.keys() & there.keys()):
        suite.holds(f"{name} is what tools/draw_cases makes of its seed", there[name] == made[name])
        suite.holds(f"{name} names its seed first", re.search(r" from seed \d+\.\Z", there[name].split("\n")[0]))
        modules = (TOP / name).with_name("Lib.antt").read_text().split("\n")
        suite.holds(f"{name} is checked with its crate", "mod DrawnCases" in modules)
    again = Path(suite.folder / "again")
    came = run([sys.executable, TOP / "tools/draw_cases", "--to", again])
    suite.note("tools/draw_cases", {"status": 0, "standard error": b""}, came)
    suite.holds("a second run makes the same", {name: (again / name).read_text() for name in made} == made)


GROUPS = [drawn_cases]
