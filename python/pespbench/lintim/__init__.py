"""LinTim's and TimPassLib's periodic networks and timetables as folders of pespbench, and back.

Their files have rows of fields between semicolons, with comments after `#`. A folder has them like LinTim, in `basis` and
`timetabling`, or all in one place; only the activities are required:

    Config.cnf, Config.csv                       period_length; 60
    Activities-periodic.giv, Activities.csv      activity; type; from event; to event; lower bound; upper bound; passengers
    Timetable-periodic.tim, Timetable.csv        event; time
    Events-periodic.giv, Events.csv              event; type; stop; line; passengers; direction; repetition
    Stop.giv, Stops.giv, Stops.csv               stop; short name; long name; x; y

If a comment above the rows names the columns of activities or events, they may have any order. The last two files give labels
and places of stations. Passengers become weights, and rows without them get 0. They are numbers with a point,
and weights are whole, so all are multiplied by the least power of ten that makes them whole.
"""

from pespbench.lintim.command import add_parser
from pespbench.lintim.folder import LinTimFiles, files_in, period_in
from pespbench.lintim.reading import LinTim, read_lintim
from pespbench.lintim.writing import save_lintim, write_lintim, write_timetable

__all__ = [
    "LinTim", "LinTimFiles", "add_parser", "files_in", "period_in", "read_lintim", "save_lintim", "write_lintim", "write_timetable",
]  # fmt: skip
