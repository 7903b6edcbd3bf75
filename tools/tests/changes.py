"""The effect of an accepted edit: whether a known optimum stays known, and which pairs are restored to the domains.

Each function receives the models before and after the edit, the edit's name and its numbers, as parsed by
tests/parsing.py. A pair is an event and a residue of the period.
"""

from typing import Sequence, Set, Tuple

from tests.network import Network

OF_WINDOWS = ["fix", "window", "unfix"]


def admits_anew(before: Network, after: Network, event: int) -> bool:
    """Whether the event may be at a residue at which it could not be before."""
    residues = range(before.period)
    return any(after.admits(event, residue) and not before.admits(event, residue) for residue in residues)


def is_looser(before: Network, after: Network, activity: int) -> bool:
    """Whether the activity's span admits two residues that it did not admit before."""
    old, new = before.activities[activity], after.activities[activity]
    return any(after.allows(new, 0, residue) and not before.allows(old, 0, residue) for residue in range(before.period))


def opens(before: Network, after: Network, name: str, numbers: Sequence[int]) -> bool:
    """Whether there may be a timetable that meets everything if there was none."""
    if name in OF_WINDOWS:
        return admits_anew(before, after, numbers[0])
    if name == "span":
        return is_looser(before, after, numbers[0])
    return name not in ("add event", "add activity", "weight")


def cheapens(before: Network, after: Network, name: str, numbers: Sequence[int]) -> bool:
    """Whether a timetable may meet everything that did not, or cost less, or have other events."""
    if name in OF_WINDOWS:
        return admits_anew(before, after, numbers[0])
    if name in ("span", "weight"):
        old, new = before.activities[numbers[0]], after.activities[numbers[0]]
        return new[4] < old[4] if name == "weight" else new[2] != old[2] or new[3] > old[3]
    return name != "add activity"


def keeps(before: Network, after: Network, name: str, numbers: Sequence[int]) -> bool:
    """Whether the optimum, or that there is none, stays known if it was."""
    best = before.best()
    if best is None:
        return not opens(before, after, name, numbers)
    cost, times = best
    return not cheapens(before, after, name, numbers) and after.is_member(times) and after.cost_of(times) == cost


def starts(before: Network, after: Network, name: str, numbers: Sequence[int]) -> Sequence[int]:
    """The events at which chains of restored pairs begin; an edit without any restores nothing."""
    if name in OF_WINDOWS:
        return [numbers[0]] if admits_anew(before, after, numbers[0]) else []
    ends = before.activities[numbers[0]][:2] if name in ("span", "drop activity", "ends") else []
    return ends if name != "span" or is_looser(before, after, numbers[0]) else []


def restored(before: Network, after: Network, name: str, numbers: Sequence[int]) -> Set[Tuple[int, int]]:
    """The pairs that an edit restores before others are removed again.

    They are reached from the starts, over activities other than the edited one, and all are outside the domains before
    the edit and in their events' windows after it.
    """
    rows = before.rows()
    outside = {event: set(after.admitted(event)) - rows.get(event, set()) for event in after.events}
    edited = numbers[0] if name in ("span", "ends") else None
    activities = [row for activity, row in after.activities.items() if activity != edited]
    waiting = [(event, residue) for event in starts(before, after, name, numbers) for residue in outside[event]]
    reached = set()
    while waiting:
        pair = waiting.pop()
        if pair in reached:
            continue
        reached.add(pair)
        event, residue = pair
        for row in activities:
            if row[0] == event:
                waiting += [(row[1], other) for other in outside[row[1]] if after.allows(row, residue, other)]
            if row[1] == event:
                waiting += [(row[0], other) for other in outside[row[0]] if after.allows(row, other, residue)]
    return reached
