"""The size of a step of a search, and whether there is time for it."""

from __future__ import annotations

from pespbench.commands import MOST_NODES

# Seconds: the length of a step that resumes the previous one. Between two steps the time is checked.
STEP = 0.25


class Pace:
    """The nodes of the next step, by the time of the previous one: steps of equal length if the next one resumes, and twice
    as many nodes if it restarts."""

    def __init__(self, nodes: int) -> None:
        """Starts with this number of nodes."""
        self.nodes = nodes
        # The seconds that must remain for the next step.
        self._wanted = 0.0

    def has_room(self, left: float) -> bool:
        """Whether to start a step when this many seconds remain."""
        return self.nodes <= MOST_NODES and left > self._wanted

    def follow(self, took: float, goes_on: bool) -> None:
        """Records a step that took this many seconds, and whether the next one resumes or restarts."""
        if goes_on:
            self._keep_even(took)
        else:
            # With twice the nodes it probably takes twice as long.
            self.nodes, self._wanted = 2 * self.nodes, took

    def _keep_even(self, took: float) -> None:
        self._wanted = 0.0
        if took < STEP / 2:
            self.nodes = min(2 * self.nodes, MOST_NODES)
        elif took > 2 * STEP:
            self.nodes = max(self.nodes // 2, 1)
