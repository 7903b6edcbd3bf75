"""Names of events and activities, for people: the program never reads them.

A file of labels has two parts, each below its header, with semicolons or commas between the fields and the quotes and
comments of the other files; it is UTF-8. Either part may be left out, and so may fields at the end of a row.

    event; line; to; station; kind
    1; M; Cranley; Ashford; departure
    activity; kind
    11; run

A row `cost; passenger minutes` gives the planner's name for the cost.
"""

from __future__ import annotations

import csv
import io
import os
from dataclasses import astuple, dataclass, field
from typing import Dict, List, Union

from pespbench import files
from pespbench.curing import file_fault, named_by
from pespbench.records import records
from pespbench.writing import write_text

EVENT_HEADER = ["event", "line", "to", "station", "kind"]
ACTIVITY_HEADER = ["activity", "kind"]
# The kinds that a planner usually cannot change.
USUALLY_KEPT = ("run", "dwell", "headway")


@dataclass(frozen=True)
class EventLabel:
    """The label of an event: a train of a `line` on its way `to` a station is at `station`; `kind` is `arrival`, `departure`, .."""

    line: str = ""
    to: str = ""
    station: str = ""
    kind: str = ""


@dataclass
class Labels:
    """The labels of events and the kinds of activities, by number. `pespbench.Names` makes texts of them."""

    events: Dict[int, EventLabel] = field(default_factory=dict)
    activities: Dict[int, str] = field(default_factory=dict)
    cost: str = ""

    @classmethod
    def read(cls, path: Union[str, "os.PathLike[str]"]) -> "Labels":
        """The labels of a file. Raises OSError if it cannot be read, FileFault if it is not a file of labels."""
        labels, part = cls(), ""
        for record, fields in records(path, "utf-8"):
            try:
                if fields[0] in ("event", "activity"):
                    part = fields[0]
                    if named_by(fields) not in ("", "labels"):
                        raise ValueError("it is no header of labels")
                elif fields[0] == "cost":
                    labels.cost = "".join(fields[1:2])
                else:
                    labels._take(part, fields)
            except ValueError as fault:
                raise file_fault(path, record, str(fault), "labels") from None
        return labels

    def _take(self, part: str, fields: List[str]) -> None:
        """Adds one row of a part. Raises ValueError with the text of its fault."""
        if not part:
            raise ValueError("there is no header `event; line; to; station; kind` or `activity; kind` above it")
        number = files.number_in(1, fields[0], files.NUMBERS)
        width = len(EVENT_HEADER if part == "event" else ACTIVITY_HEADER)
        if number in self.events if part == "event" else number in self.activities:
            raise ValueError(f"{part} is repeated")
        if any(fields[width:]):
            raise ValueError("wrong number of fields")
        names = fields[1:width]
        if part == "event":
            self.events[number] = EventLabel(*names)
        else:
            self.activities[number] = names[0] if names else ""

    def write(self, path: Union[str, "os.PathLike[str]"]) -> None:
        """Writes the file that reads as these labels. Raises OSError."""
        write_text(path, self.text())

    def text(self) -> str:
        """The file that reads as these labels."""
        rows: List[List[object]] = [list(EVENT_HEADER)]
        rows += [[event, *astuple(self.events[event])] for event in sorted(self.events)]
        rows += [list(ACTIVITY_HEADER)] if self.activities else []
        rows += [[number, self.activities[number]] for number in sorted(self.activities)]
        rows += [["cost", self.cost]] if self.cost else []
        text = io.StringIO()
        csv.writer(text, delimiter=";", lineterminator="\n").writerows(rows)
        return text.getvalue()

    def kind(self, activity: int) -> str:
        """The kind of an activity, or an empty text."""
        return self.activities.get(activity, "")
