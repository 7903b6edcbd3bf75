"""A bench as a table and as a graph."""

from __future__ import annotations

from typing import Any, List

from pespbench.kept import Kept
from pespbench.tables import ActivityRow, graph_of, rows_of


class Tabled(Kept):
    """The local state of a bench, in other forms."""

    def rows(self) -> List[ActivityRow]:
        """A row for each activity, ascending, with its tension in the working timetable: `pandas.DataFrame(bench.rows())`."""
        return rows_of(self.network, self.times, self.labels)

    def to_networkx(self) -> Any:
        """A MultiDiGraph of networkx: events with `time`, `window` and labels; activities, by number, with the columns of `rows`.

        Raises ModuleNotFoundError if networkx is not installed.
        """
        return graph_of(self.network, self.times, self.labels)
