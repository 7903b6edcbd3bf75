"""What Tab completes at the prompt of the shell: names of commands, numbers of events and activities, and folders."""

from __future__ import annotations

import glob
import os
from contextlib import suppress
from importlib import import_module
from typing import Callable, Collection, List, Optional, Sequence

from pespbench.commands import name_of
from pespbench.network import Network
from pespbench.replies import BEGINNINGS

COMMANDS = {*BEGINNINGS, "domain"}
# What the numbers after a command name, if it must exist.
EVENT, ACTIVITY, NEW = "event", "activity", "new"
NUMBERS = {
    **dict.fromkeys(["drop event", "fix", "window", "unfix", "domain", "time", "untime"], [EVENT]),
    **dict.fromkeys(["drop activity", "span", "weight"], [ACTIVITY]),
    "ends": [ACTIVITY, EVENT, EVENT], "add activity": [NEW, EVENT, EVENT],
}  # fmt: skip
# The words of the shell that a folder follows.
OF_FOLDERS = ["save"]


def candidates(before: Sequence[str], begun: str, network: Network, more: Collection[str]) -> List[str]:
    """The words that complete `begun` after the words `before`; `more` are additional first words of the shell."""
    if list(before) == OF_FOLDERS:
        return sorted(f"{path}/" for path in glob.glob(f"{glob.escape(begun)}*") if os.path.isdir(path))
    names = [name.split() for name in {*COMMANDS, *more}]
    words = sorted({name[len(before)] for name in names if name[: len(before)] == list(before) and len(name) > len(before)})
    return [word for word in [*words, *numbers(before, network)] if word.startswith(begun)]


def numbers(before: Sequence[str], network: Network) -> List[str]:
    """The numbers that can follow the words of a command."""
    name = name_of(" ".join(before)) if before else ""
    kinds, place = NUMBERS.get(name, []), len(before) - len(name.split())
    kind = kinds[place] if place < len(kinds) else NEW
    known = network.events if kind == EVENT else sorted(network.activities) if kind == ACTIVITY else []
    return [str(number) for number in known]


class Completion:
    """Answers readline, which asks for one candidate after the other; `line` is what was typed up to the cursor."""

    def __init__(self, network: Callable[[], Network], more: Collection[str], line: Callable[[], str]) -> None:
        self._network, self._more, self._line = network, more, line
        self._found: List[str] = []

    def __call__(self, begun: str, place: int) -> Optional[str]:
        if place == 0:
            before = self._line().removesuffix(begun).split()
            self._found = candidates(before, begun, self._network(), self._more)
        return self._found[place] if place < len(self._found) else None


def complete_by(network: Callable[[], Network], more: Collection[str]) -> None:
    """Completes typed words at Tab, if Python has readline."""
    with suppress(ImportError):
        readline = import_module("readline")
        readline.set_completer_delims(" ")
        readline.set_completer(Completion(network, more, lambda: str(readline.get_line_buffer()[: readline.get_endidx()])))
        # Some systems provide another library under its name.
        readline.parse_and_bind("bind ^I rl_complete" if "libedit" in (readline.__doc__ or "") else "tab: complete")
