"""Answers for other programs: JSON, one line each, and CSV, one table each, whose rows repeat the facts that are stated once."""

from __future__ import annotations

import argparse
import csv
import io
import json
from dataclasses import dataclass, field
from typing import Any, Dict, List, Mapping, Optional, Sequence

from pespbench.answers import Domain, Found, Infeasible, Optimum, Stopped, Violations
from pespbench.faults import Fault, Refused
from pespbench.session import Outcome

FORMS = ("json", "csv")


@dataclass(frozen=True)
class Table:
    """An answer with its name, the facts stated once, and rows below their titles."""

    answer: str
    facts: Mapping[str, object] = field(default_factory=dict)
    titles: Sequence[str] = ()
    rows: Sequence[Sequence[object]] = ()

    def text(self, form: str) -> str:
        """The answer as `json`, where rows are objects, or as `csv`."""
        return self._json() if form == "json" else self._csv()

    def _json(self) -> str:
        told: Dict[str, object] = {"answer": self.answer, **self.facts}
        if self.titles:
            told["rows"] = [dict(zip(self.titles, row)) for row in self.rows]
        return f"{json.dumps(told)}\n"

    def _csv(self) -> str:
        text = io.StringIO()
        writer, once = csv.writer(text, lineterminator="\n"), [self.answer, *self.facts.values()]
        writer.writerow(["answer", *self.facts, *self.titles])
        for row in self.rows or [[None] * len(self.titles)]:
            writer.writerow(map(cell, [*once, *row]))
        return text.getvalue()


def cell(value: object) -> object:
    """A value in CSV: several are separated by blanks, and a truth value is yes or no, as in JSON."""
    if isinstance(value, bool):
        return "true" if value else "false"
    return " ".join(map(str, value)) if isinstance(value, (tuple, list)) else value


def table_of(outcome: Outcome, command: str = "") -> Table:
    """The table of a command's result; that of `adopt` has the adopted optimum."""
    if outcome is None:
        return Table("ok")
    if isinstance(outcome, Refused):
        return Table("refused", {"number": outcome.number, "event": outcome.event, "activity": outcome.activity, "text": outcome.text})
    if isinstance(outcome, Fault):
        return Table("fault", {"word": outcome.word, "text": outcome.text})
    if isinstance(outcome, int):
        return Table("cost", {"cost": outcome})
    if isinstance(outcome, str):
        return Table("dump", {}, ["command"], [[line] for line in outcome.splitlines()[1:]])
    if isinstance(outcome, Violations):
        return Table("violations", {}, ["of", "number"], list(outcome))
    if isinstance(outcome, (Optimum, Infeasible, Stopped)):
        return Table(word_of(outcome), {"cost": outcome.cost}, ["event", "time"], list(outcome))
    return table_of_rows([outcome] if isinstance(outcome, Domain) else list(outcome.values()), command)


def table_of_rows(rows: List[Any], command: str) -> Table:
    """The table of domains, or of tensions; if it is empty, the command decides which."""
    if command.startswith("domains") or rows and isinstance(rows[0], Domain):
        return Table("domains", {}, ["event", "times"], [[row.event, row.residues] for row in rows])
    return Table("tensions", {}, ["activity", "tension", "slack"], list(map(list, rows)))


def word_of(found: Found) -> str:
    """The program's word for the result of a search."""
    return type(found).__name__.lower()


def add_form(parser: argparse.ArgumentParser) -> None:
    """Adds the options for another form."""
    forms = parser.add_mutually_exclusive_group()
    for form in FORMS:
        forms.add_argument(f"--{form}", dest="form", action="store_const", const=form, help=f"write it as {form.upper()}")


def in_form(form: Optional[str], table: Table, text: str) -> str:
    """The table in the requested form, or the text by default."""
    return text if form is None else table.text(form)
