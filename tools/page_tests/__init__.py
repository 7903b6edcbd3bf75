"""Tests of the page in a headless browser. They use the Python package, which generates networks and reads saved files."""

import sys

from tests.harness import TOP

sys.path.insert(0, str(TOP / "python"))
