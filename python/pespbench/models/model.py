"""An integer program of columns and of rows that are equations, and its texts as solvers read them."""

from __future__ import annotations

from dataclasses import dataclass
from itertools import groupby
from typing import Dict, Iterable, Iterator, List, NamedTuple, Sequence, Tuple

# A column fixed at 0, so that there is a row even if nothing else is.
ORIGIN = "origin"
# The terms of a line: readers have limits of a few hundred bytes.
TERMS_OF_LINE = 8


class Column(NamedTuple):
    """A variable of the solver, within its bounds; each unit costs `weight`."""

    name: str
    lower: int
    upper: int
    weight: int = 0
    is_whole: bool = False


class Row(NamedTuple):
    """Its terms, each a column with its factor, sum to `value`."""

    name: str
    terms: Sequence[Tuple[str, int]]
    value: int


@dataclass(frozen=True)
class Model:
    """Columns and rows; the total cost of the columns is minimized."""

    title: str
    columns: Sequence[Column]
    rows: Sequence[Row]

    @classmethod
    def of(cls, title: str, columns: Iterable[Column], rows: Iterable[Row]) -> "Model":
        """A model with at least one row, and only columns with a weight or in a row: readers refuse the others."""
        kept = [*rows] or [Row("still", [(ORIGIN, 1)], 0)]
        named = {name for row in kept for name, _ in row.terms}
        origin = [Column(ORIGIN, 0, 0)] if ORIGIN in named else []
        return cls(title, [*origin, *(column for column in columns if column.weight or column.name in named)], kept)

    def lp(self) -> str:
        """The text in the LP format of CPLEX."""
        costs = [(column.name, column.weight) for column in self.columns if column.weight] or [(self.columns[0].name, 0)]
        lines = [f"\\ {self.title}", "Minimize", *lp_lines("cost", costs), "Subject To"]
        for row in self.rows:
            lines += lp_lines(row.name, row.terms)
            lines[-1] += f" = {row.value}"
        lines += ["Bounds", *(f" {column.lower} <= {column.name} <= {column.upper}" for column in self.columns)]
        whole = [f" {column.name}" for column in self.columns if column.is_whole]
        return "\n".join([*lines, *(["Generals", *whole] if whole else []), "End", ""])

    def mps(self) -> str:
        """The text in the MPS format: a free one, and also a fixed one if no name has more than 8 letters."""
        lines = [f"* {self.title}", "NAME          pespbench", "ROWS", " N  cost", *(f" E  {row.name}" for row in self.rows), "COLUMNS"]
        costs = {column.name: [mps_line("", column.name, "cost", column.weight)] for column in self.columns if column.weight}
        entries: Dict[str, List[str]] = {column.name: costs.get(column.name, []) for column in self.columns}
        for row in self.rows:
            for name, factor in row.terms:
                entries[name].append(mps_line("", name, row.name, factor))
        for is_whole, columns in groupby(self.columns, key=lambda column: column.is_whole):
            own = [line for column in columns for line in entries[column.name]]
            lines += [mps_marker("INTORG"), *own, mps_marker("INTEND")] if is_whole else own
        lines += ["RHS", *(mps_line("", "RHS", row.name, row.value) for row in self.rows if row.value), "BOUNDS"]
        return "\n".join([*lines, *mps_bounds(self.columns), "ENDATA", ""])


def lp_lines(name: str, terms: Sequence[Tuple[str, int]]) -> List[str]:
    """A named sum, some terms a line."""
    texts = [f"{'-' if factor < 0 else '+'} {abs(factor)} {column}" for column, factor in terms]
    lines = [" ".join(texts[start : start + TERMS_OF_LINE]) for start in range(0, len(texts), TERMS_OF_LINE)]
    return [f" {name}: {lines[0]}", *(f"  {line}" for line in lines[1:])]


def mps_line(kind: str, first: str, second: str, value: int) -> str:
    """A line whose fields are in their columns, if names are short enough."""
    return f" {kind:<2} {first:<8}  {second:<8}  {value:>12}"


def mps_marker(word: str) -> str:
    """The line before the whole columns, or after them."""
    return f"    MARKER                 'MARKER'                 '{word}'"


def mps_bounds(columns: Iterable[Column]) -> Iterator[str]:
    """Both bounds of each column: readers disagree on the defaults."""
    for column in columns:
        yield mps_line("LO", "BND", column.name, column.lower)
        yield mps_line("UP", "BND", column.name, column.upper)
