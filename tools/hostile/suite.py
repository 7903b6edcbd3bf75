"""The options of a part of the tests of hostile use, and its results."""

import pathlib
from typing import List, Sequence, Tuple

from hostile.served import Came
from tests.harness import short

# A run that went wrong: where, its fault, and its result.
Wrong = Tuple[object, str, Came]
# The most shown for a case.
SHOWN = 5


class Suite:
    """The options of a part, and its results: passed and failed cases, and the amount of work."""

    def __init__(self, program: pathlib.Path, library: pathlib.Path, is_whole: bool) -> None:
        self.program, self.library, self.is_whole = program, library, is_whole
        self.runs = self.passed = 0
        self.faults: List[str] = []
        self.notes: List[str] = []

    def found(self, name: str, runs: int, wrong: Sequence[Wrong]) -> None:
        """One case with this amount of work; each wrong run has a place, a fault, and its result."""
        self.runs += runs
        if not wrong:
            self.passed += 1
            return
        self.faults.append(f"FAILED {name}: {len(wrong)} of {runs} runs")
        for place, fault, came in wrong[:SHOWN]:
            told = {"status": came.status, "standard error": came.error, "standard output": came.output}
            self.faults.append(f"  at {place}: {fault}: {short(told)}")

    def holds(self, name: str, fact: object) -> None:
        """One case that is true or false."""
        self.passed += bool(fact)
        self.faults += [] if fact else [f"FAILED {name}"]

    def note(self, text: str) -> None:
        self.notes.append(text)

    def failed(self) -> int:
        return sum(fault.startswith("FAILED") for fault in self.faults)
