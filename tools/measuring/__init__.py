"""The parts of tools/measure. The Python package generates networks, and exports them for other solvers."""

import sys

from tests.harness import TOP

sys.path.insert(0, str(TOP / "python"))
