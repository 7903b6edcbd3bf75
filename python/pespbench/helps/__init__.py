"""What would help: the best timetable with one more minute at each activity, and what it saves."""

from pespbench.helps.answers import Gain, Helps
from pespbench.helps.asking import helps
from pespbench.helps.command import add_parser
from pespbench.helps.telling import text_of

__all__ = ["Gain", "Helps", "add_parser", "helps", "text_of"]
