"""The answer of `why`, in a planner's words."""

from __future__ import annotations

from typing import Sequence

from pespbench.forms import Table
from pespbench.why.answers import Conflict, Mend, Possible, Undecided, Why
from pespbench.why.members import Bounds, Held, Member, Of, Verdict
from pespbench.why.shapes import Circle, Shape
from pespbench.wording import Names, minutes, span_text, window_text

# The heading above the repairs, by what a search says of the whole network with them.
WHOLE = {
    Verdict.POSSIBLE: "with each of these the whole network has a timetable:",
    None: "these mend the conflict, and the whole network was not tried with them:",
    Verdict.UNDECIDED: "these mend the conflict, and whether the whole network has a timetable then is undecided:",
    Verdict.INFEASIBLE: "with each of these another conflict is left:",
}
# The kinds whose repairs are listed before others of as many minutes: theirs are the easiest to make.
FIRST_KINDS = ("turnaround", "turn", "change")
TITLES = ["part", "of", "number", "name", "lower", "upper", "hard", "minutes", "whole"]


def text_of(answer: Why, names: Names) -> str:
    """The answer as lines of text."""
    if isinstance(answer, Possible):
        return "A timetable meets everything, so there is no conflict.\n"
    if isinstance(answer, Undecided):
        return f"Undecided: a search of {answer.nodes:,} nodes came to no timetable, and single activities show no conflict.\n"
    blocks = [members_text(answer, names), shape_text(answer), claim_text(answer, names), mends_text(answer, names)]
    return "\n".join(filter(None, blocks))


def table_of(answer: Why, names: Names) -> Table:
    """The members of a conflict, in the order of their circle or way, and then its mends, with what they ask for."""
    if isinstance(answer, Possible):
        return Table("possible", {}, ["event", "time"], sorted(answer.times.items()))
    if isinstance(answer, Undecided):
        return Table("undecided", {"nodes": answer.nodes})
    rows = [["member", *cells(each, answer.members[each], names), each in answer.hard, None, None] for each in ordered(answer)]
    for mend in in_order(answer.mends, names):
        rows.append(["mend", *cells(mend.member, mend.after, names), False, mend.minutes, mend.whole.value if mend.whole else None])
    return Table("conflict", {"is_least": answer.is_least}, TITLES, rows)


def cells(member: Member, bounds: Bounds, names: Names) -> list[object]:
    """Whose member it is, its name, and the first and the last that it may be."""
    ends = (bounds.first, bounds.first + bounds.length - 1) if isinstance(bounds, Held) else (bounds.lower, bounds.upper)
    return [member.of.value, member.number, member_name(member, names), *ends]


def members_text(conflict: Conflict, names: Names) -> str:
    """The conflict, along the circle or path if it is one."""
    count = len(conflict.members)
    lines = [f"These {count} cannot be met together:" if count > 1 else "This cannot be met:", ""]
    rows = [member_row(member, conflict, names) for member in ordered(conflict)]
    width = max(len(name) for name, _ in rows)
    lines += [f"  {name:<{width}}  {bounds}" for name, bounds in rows]
    return "\n".join(lines) + "\n"


def ordered(conflict: Conflict) -> list[Member]:
    """The members in the order of the circle or path, a window beside its event; otherwise by number."""
    if conflict.shape is None:
        return list(conflict.members)
    steps = conflict.shape.steps
    activities = [Member(Of.ACTIVITY, step.activity.number) for step in steps]
    first, last = Member(Of.EVENT, steps[0].start), Member(Of.EVENT, steps[-1].end)
    events = [member for member in (first, last) if member in conflict.members]
    return [*events[:1], *activities, *events[1:]]


def member_row(member: Member, conflict: Conflict, names: Names) -> tuple[str, str]:
    """A member's name and its span or window."""
    backward = conflict.shape and {step.activity.number for step in conflict.shape.steps if not step.is_forward}
    notes = ["against its direction"] if member.of is Of.ACTIVITY and backward and member.number in backward else []
    notes += ["hard"] if member in conflict.hard else []
    told = bounds_text(conflict.members[member]) + (f" ({', '.join(notes)})" if notes else "")
    return member_name(member, names), told


def member_name(member: Member, names: Names) -> str:
    """A member in words."""
    return names.activity(member.number) if member.of is Of.ACTIVITY else names.event(member.number)


def bounds_text(bounds: Bounds) -> str:
    """The span or window of a member."""
    if isinstance(bounds, Held):
        return window_text(bounds.first, bounds.length, bounds.period)
    return f"{span_text(bounds.lower, bounds.upper)} minutes"


def shape_text(conflict: Conflict) -> str:
    """The sum along a circle or a path."""
    shape = conflict.shape
    if shape is None:
        return ""
    taken, wanted = span_text(shape.least, shape.most), wanted_text(shape)
    if isinstance(shape, Circle):
        return f"Once round this circle they take {taken} minutes, and have to take {wanted}: a whole number of periods.\n"
    return f"On this way from one held event to the other they take {taken} minutes, and have to take {wanted}.\n"


def wanted_text(shape: Shape) -> str:
    """The nearest possible durations of a circle or path; one below 0 is only listed if there is no other."""
    below, above = shape.wanted
    told = [span_text(*each) for each in (below, above) if each[0] >= 0 or each is above]
    return " or ".join(told)


def claim_text(conflict: Conflict, names: Names) -> str:
    """The sense in which the set is minimal."""
    if conflict.is_least:
        return "" if len(conflict.members) == 1 else "Without any one of them, the others have a timetable.\n"
    undecided = [member_name(member, names) for member, verdict in conflict.without.items() if verdict is Verdict.UNDECIDED]
    told = f"Searches of {conflict.nodes:,} nodes see no conflict in the others without one of them; undecided is that without "
    return f"{told}{', '.join(undecided)}.\n"


def mends_text(conflict: Conflict, names: Names) -> str:
    """The repairs of the conflict, best first."""
    if not conflict.mends:
        return "No member that may be changed is seen to mend it alone.\n"
    blocks = ["The least that mends it, for one member alone, best first;"]
    for verdict, words in WHOLE.items():
        rows = mend_rows([mend for mend in in_order(conflict.mends, names) if mend.whole is verdict], conflict, names)
        if rows:
            width = max(len(where) for _, where, _ in rows)
            blocks.append("\n".join([words, "", *(f"  {count:>15}  {where:<{width}}  {change}" for count, where, change in rows)]) + "\n")
    return "\n".join(blocks)


def in_order(mends: Sequence[Mend], names: Names) -> list[Mend]:
    """The repairs in their order, but turnarounds and then changes before others of as many minutes and with the same result."""

    def rank(mend: Mend) -> tuple[int, int, int]:
        kind = names.labels.kind(mend.member.number) if mend.member.of is Of.ACTIVITY else ""
        return list(WHOLE).index(mend.whole), mend.minutes, [*FIRST_KINDS, kind].index(kind)

    return sorted(mends, key=rank)


def mend_rows(mends: Sequence[Mend], conflict: Conflict, names: Names) -> list[tuple[str, str, str]]:
    """For each repair its minutes, its place, and the change; those all along a circle or path, with the same minutes, are one."""
    alike = alike_of(mends, conflict)
    rows = []
    for mend in mends:
        if mend not in alike[1:]:
            anywhere = f"anywhere on it{' that is not hard' if conflict.hard else ''}, such as " if mend in alike[:1] else ""
            rows.append((count_text(mend), anywhere + member_name(mend.member, names), change_text(mend)))
    return rows


def alike_of(mends: Sequence[Mend], conflict: Conflict) -> list[Mend]:
    """The repairs of the steps along a circle or path that may be changed, if all have the same minutes; otherwise none."""
    steps = conflict.shape.steps if conflict.shape else []
    along = {Member(Of.ACTIVITY, step.activity.number) for step in steps if step.is_forward} - conflict.hard
    found = [mend for mend in mends if mend.member in along and not mend.is_less]
    is_one = len(found) == len(along) > 1 and len({mend.minutes for mend in found}) == 1
    return found if is_one else []


def count_text(mend: Mend) -> str:
    """By how many minutes a repair widens."""
    return f"{minutes(mend.minutes)} {'less' if mend.is_less else 'more'}"


def change_text(mend: Mend) -> str:
    """The new and the present span or window of a repair."""
    return f"{bounds_text(mend.after)} in place of {bounds_text(mend.before).removesuffix(' minutes')}"
