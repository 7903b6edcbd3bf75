"""What would help, in a planner's words."""

from __future__ import annotations

from pespbench.answers import Found, Infeasible, Optimum
from pespbench.forms import Table, word_of
from pespbench.helps.answers import Gain, Helps
from pespbench.wording import Names, minutes, span_text


def text_of(answer: Helps, names: Names) -> str:
    """The answer as lines of text, one for each activity that helps."""
    gains, is_none = answer.gains, answer.before.cost is None
    lines = [before_text(answer.before), asked_text(answer)]
    if not gains:
        return "\n".join([*lines, "None of them helps." if is_none else "None of them saves anything.", ""])
    lines.append("With each of these alone there is a timetable:" if is_none else "Each of these alone saves:")
    rows = [(gain_text(each), names.activity(each.activity), change_text(each, names)) for each in gains]
    first, second = (max(len(row[place]) for row in rows) for place in (0, 1))
    return "\n".join([*lines, "", *(f"  {row[0]:>{first}}  {row[1]:<{second}}  {row[2]}" for row in rows), ""])


def table_of(answer: Helps, names: Names) -> Table:
    """All answers, the most useful first, for other programs."""
    rest = [each for each in answer.answers if each not in answer.gains]
    rows = [
        [each.activity, names.activity(each.activity), each.lower, each.upper, word_of(each.found), each.found.cost, each.saves]
        for each in [*answer.gains, *rest]
    ]
    facts = {"minutes": answer.minutes, "asked": answer.asked, "before": word_of(answer.before), "cost_before": answer.before.cost}
    return Table("helps", facts, ["activity", "name", "lower", "upper", "found", "cost", "saves"], rows)


def before_text(before: Found) -> str:
    """The best result of the unchanged network."""
    if isinstance(before, Infeasible):
        return "As it is, no timetable meets everything."
    if isinstance(before, Optimum):
        return f"The best timetable as it is costs {before.cost:,}."
    if before.cost is None:
        return "As it is, no timetable was found; perhaps there is one."
    return f"As it is, a timetable was found that costs {before.cost:,}; perhaps not the best."


def asked_text(answer: Helps) -> str:
    """How many activities were tried, with what change, and how many were not."""
    change = f"{minutes(answer.minutes)} more" if answer.minutes > 0 else f"its least lowered by {minutes(-answer.minutes)}"
    left = answer.asked - len(answer.answers)
    return f"{len(answer.answers):,} of {answer.asked:,} activities were asked about, each with {change}{f'; {left:,} not asked' if left else ''}."


def gain_text(gain: Gain) -> str:
    """What is saved, or the cost of the timetable that becomes possible."""
    more = "" if gain.is_sure else " or more" if gain.saves is not None else " or less"
    told = f"costs {gain.found.cost:,}" if gain.saves is None else f"{gain.saves:,}"
    return f"{told}{more}"


def change_text(gain: Gain, names: Names) -> str:
    """The new span, and the present one."""
    now = names.activities[gain.activity]
    return f"{span_text(gain.lower, gain.upper)} minutes in place of {span_text(now.lower, now.upper)}"
