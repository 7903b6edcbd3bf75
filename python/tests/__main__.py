"""Runs the tests and writes a line for each: `passed NAME`, `skipped NAME: why` or `failed NAME`, with what failed below it.

usage: cd python && python3 -m tests [MODULE ..]

Without modules all are run. The exit status is 1 if a test failed.
"""

from __future__ import annotations

import sys
import time
import traceback
import unittest
from pathlib import Path
from typing import Any, List


class Lines(unittest.TestResult):
    """Writes the result of each test, as soon as it is known."""

    def startTest(self, test: unittest.TestCase) -> None:
        super().startTest(test)
        self.began = time.monotonic()

    def tell(self, word: str, test: unittest.TestCase, why: str = "") -> None:
        took = time.monotonic() - getattr(self, "began", time.monotonic())
        print(f"{word} {test.id()}{why} ({took:.1f} s)", flush=True)

    def addSuccess(self, test: unittest.TestCase) -> None:
        super().addSuccess(test)
        self.tell("passed", test)

    def addSkip(self, test: unittest.TestCase, reason: str) -> None:
        super().addSkip(test, reason)
        self.tell("skipped", test, f": {reason}")

    def addSubTest(self, test: unittest.TestCase, subtest: unittest.TestCase, err: Any) -> None:
        super().addSubTest(test, subtest, err)
        if err is not None:
            self.tell("failed", subtest)
            print("".join(traceback.format_exception_only(*err[:2])), end="", flush=True)

    def addError(self, test: unittest.TestCase, err: Any) -> None:
        super().addError(test, err)
        self.tell("failed", test)
        print(self.errors[-1][1], flush=True)

    addFailure = addError


def main(modules: List[str]) -> int:
    """Runs the tests of modules, or all, and returns the exit status."""
    here = Path(__file__).resolve().parent
    names = modules or [f"tests.{path.stem}" for path in sorted(here.glob("test_*.py"))]
    result = Lines()
    unittest.defaultTestLoader.loadTestsFromNames(names).run(result)
    return 0 if result.wasSuccessful() else 1


if __name__ == "__main__":
    sys.exit(main(sys.argv[1:]))
