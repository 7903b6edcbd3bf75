"""Instructions and memory of one run of the program."""

import re
import subprocess
import sys
from pathlib import Path
from typing import List, Sequence, Union


# The words of a command, each converted to text, and the file of its standard input; none is an empty one.
Words = Sequence[object]
Given = Union[Path, str, None]


def run(command: Words, status: int = 0, given: Given = None) -> "subprocess.CompletedProcess[str]":
    with open(given or "/dev/null", "rb") as file:
        done = subprocess.run(list(map(str, command)), capture_output=True, text=True, check=False, stdin=file)
    if done.returncode != status:
        sys.exit(f"tools/measure: {command[0]} ended with status {done.returncode}\n{done.stderr}")
    return done


def count(words: Words, profile: Path, status: int = 0, given: Given = None) -> int:
    """The instructions of one run, whose profile is written to a file."""
    counted = run(["valgrind", "--tool=callgrind", f"--callgrind-out-file={profile}", *words], status, given)
    return number_in(r"Collected : (\d+)", counted.stderr)


def number_in(pattern: str, text: str) -> int:
    """The number in a pattern's group in a text that contains it."""
    found = re.search(pattern, text, re.MULTILINE)
    assert found is not None
    return int(found[1])


def count_replies(words: Words, profile: Path, given: Given) -> List[int]:
    """The instructions of one run between replies, each of which is one write."""
    run(["valgrind", "--tool=callgrind", f"--callgrind-out-file={profile}", "--dump-before=write", *words], 0, given)
    counts: List[int] = []
    while (part := profile.with_name(f"{profile.name}.{len(counts) + 1}")).exists():
        counts.append(number_in(r"^totals: (\d+)$", part.read_text()))
        part.unlink()
    return counts


def peak(words: Words, path: Path, status: int = 0, given: Given = None) -> int:
    """The peak memory of one run, in kB."""
    run(["/usr/bin/time", "-q", "-f", "%M", "-o", path, *words], status, given)
    return int(path.read_text())
