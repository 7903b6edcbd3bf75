"""Minimal sets: which members of an infeasible set are enough, by bisection."""

from __future__ import annotations

from typing import Callable, Sequence

from pespbench.why.members import Member

# Whether a set is found to be infeasible.
Test = Callable[[Sequence[Member]], bool]


def least(members: Sequence[Member], background: Sequence[Member], test: Test) -> list[Member]:
    """Members that are infeasible together with the background, all of whose members are required.

    Where the test sees more in a larger set, none of them can be omitted; `settled` handles the other case.
    """
    if not members or test(background):
        return []
    return _halves(list(background), False, list(members), test)


def _halves(background: list[Member], is_grown: bool, members: list[Member], test: Test) -> list[Member]:
    if is_grown and test(background):
        return []
    if len(members) == 1:
        return members
    middle = len(members) // 2
    first, second = members[:middle], members[middle:]
    needed = _halves(background + first, True, second, test)
    return _halves(background + needed, bool(needed), first, test) + needed


def settled(members: Sequence[Member], test: Test) -> list[Member]:
    """The members without those that can be omitted one by one: no set with one member less is found to be infeasible."""
    kept, is_changed = list(members), True
    # A member that was needed beside another one, dropped later, may be unnecessary now, so the last round changes nothing.
    while is_changed:
        before = list(kept)
        for member in before:
            without = [each for each in kept if each != member]
            if test(without):
                kept = without
        is_changed = len(kept) < len(before)
    return kept
