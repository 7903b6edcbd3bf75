"""The text of the sources, compared with docs/STYLE.md: clauses within their columns, and a comment on each private field; and no
links."""

import re
from pathlib import Path
from typing import Iterator, List, Tuple

from tests.harness import TOP, Suite, run

COLUMNS = 100
# Of a hundred clauses this many may have a longer line.
LONG_ONES = 5

CLAUSE = re.compile(r"^\s*(?:requires|ensures)(?: \w+)? \{")
STRUCT = re.compile(r"^(\s*)(?:pub(?:\(\w+\))? )?struct \w+.*\{$")
FIELD = re.compile(r"^\s*(?:pub\(\w+\) )?(\w+): ")


def sources() -> List[Path]:
    return sorted(TOP.glob("crates/*/src/**/*.rt"))


def clauses() -> Iterator[Tuple[str, str]]:
    """The first line of each clause, with its place."""
    for path in sources():
        for number, line in enumerate(path.read_text().splitlines(), 1):
            if CLAUSE.match(line):
                yield f"{path.relative_to(TOP)}:{number}", line


def clauses_within_columns(suite: Suite) -> None:
    all_of_them = list(clauses())
    long = [place for place, line in all_of_them if len(line) > COLUMNS]
    suite.holds("there are clauses", len(all_of_them) > 2_000)
    suite.holds(f"{len(long)} clauses pass {COLUMNS} columns: {long}", 100 * len(long) <= LONG_ONES * len(all_of_them))


def silent_fields(path: Path) -> Iterator[str]:
    """The private fields of a file's types without a comment above them; one may be above consecutive fields."""
    end, told = None, False
    for number, line in enumerate(path.read_text().splitlines(), 1):
        head, field = STRUCT.match(line), FIELD.match(line)
        if head:
            end, told = f"{head[1]}}}", False
        elif line == end:
            end = None
        elif end is not None and line.strip().startswith("//"):
            told = True
        elif end is not None and field and not told:
            yield f"{path.relative_to(TOP)}:{number} {field[1]}"


def private_fields(suite: Suite) -> None:
    """A field that only its crate sees has a line with its invariant."""
    silent = [field for path in sources() for field in silent_fields(path)]
    suite.note("each private field has a comment", {"silent": []}, {"silent": silent})


def no_links(suite: Suite) -> None:
    """`rt ci` refuses a tree in which a file or a folder is a link."""
    listed = run(["git", "-C", TOP, "ls-files", "-s"])
    if listed["status"] == 0:
        lines = listed["standard output"].decode(errors="replace").splitlines()
        suite.note("no file is a link", {"links": []}, {"links": [line.partition("\t")[2] for line in lines if line.startswith("120000 ")]})


GROUPS = [clauses_within_columns, private_fields, no_links]
