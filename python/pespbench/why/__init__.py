"""Why no timetable meets everything: a minimal set that cannot be met together, in words, with its repairs."""

from pespbench.why.answers import Conflict, Mend, Possible, Undecided, Why
from pespbench.why.command import add_parser
from pespbench.why.finding import why
from pespbench.why.members import Held, Member, Of, Span, Verdict
from pespbench.why.telling import text_of

__all__ = [
    "Conflict", "Held", "Member", "Mend", "Of", "Possible", "Span", "Undecided", "Verdict", "Why", "add_parser", "text_of",
    "why",
]
