"""Streams of commands with their output, for tests/commands.py. ` / ` represents a line end."""

NOTHING = ""
TWO = "1; 1; 2; 3; 5; 2 / 2; 2; 1; 4; 6; 1"
THREE = "1; 1; 2; 1; 2; 0 / 2; 1; 3; 1; 2; 0 / 3; 2; 3; 1; 2; 0"

STOPPED = "1 0 / 2 1 / 3 9"
# They cost nothing and admit the same as the first activity of their case, and so many delay a search's end for some steps.
COPIES = " / ".join(f"{number}; 3; 2; 2; 8; 0" for number in range(4, 1006))
TEN = "0 1 2 3 4 5 6 7 8 9"
FULL = f"domains 2 / 1: {TEN} / 2: {TEN}"
BEST = "optimum 4 2 / 1 0 / 2 4"
SCRIPT = (
    "# period 10 lines 4 / add event 1 / add event 2 / add activity 1 1 2 3 5 2 / add activity 2 2 1 4 6 1"
)
OF_THREE = "optimum 0 3 / 1 0 / 2 1 / 3 2"
OF_THREE_WEIGHTED = "optimum 1 3 / 1 0 / 2 1 / 3 2"

# For each: its name, the period, the activities, the lines, and the replies.
CASES = [
    (
        "empty instance",
        10,
        NOTHING,
        "domains / optimum / cost / dump / tensions / violations / adopt / try 0",
        "domains 0 / optimum 0 0 / cost 0 / # period 10 lines 0 / tensions 0 / violations 0 / ok / optimum 0 0",
    ),
    ("two activities", 10, TWO, "optimum", BEST),
    (
        "a window on a tree, in milliseconds",
        46,
        "1; 31; 25; 61; 91; 10 / 2; 24; 31; -65; -16; 2 / 3; 22; 34; -48; -18; 2 / 4; 31; 34; -106; -57; 1000 / 5; 25; 29; 44; 87; 10 / 6; 31; 33; 54; 99; 3",
        "window 34 11 20 / optimum",
        "ok / optimum 0 7 / 22 13 / 24 44 / 25 40 / 29 38 / 31 25 / 33 33 / 34 11",
    ),
    ("a fixed event narrows domains", 10, TWO, "fix 1 0 / domains", "ok / domains 2 / 1: 0 / 2: 4 5"),
    ("infeasible with full domains", 10, TWO, "span 1 3 3 / domains / optimum", f"ok / {FULL} / infeasible"),
    (
        "infeasible with empty domains",
        10,
        TWO,
        "span 1 3 3 / fix 1 0 / domains / optimum / add event 3 / domain 3 / optimum",
        f"ok / ok / domains 2 / 1: / 2: / infeasible / ok / 3: {TEN} / infeasible",
    ),
    (
        "a fixed time that goes refills both rows",
        10,
        TWO,
        "fix 1 0 / span 1 3 4 / domains / unfix 1 / domains",
        f"ok / ok / domains 2 / 1: 0 / 2: 4 / ok / {FULL}",
    ),
    (
        "three events, ties by number",
        3,
        THREE,
        "optimum / weight 1 1 / weight 2 1 / weight 3 1 / optimum",
        f"{OF_THREE} / ok / ok / ok / {OF_THREE_WEIGHTED}",
    ),
    (
        "four events at period three",
        3,
        THREE,
        "weight 1 1 / weight 2 1 / weight 3 1 / add event 4 / add activity 4 1 4 1 2 1 / add activity 5 2 4 1 2 1"
        " / add activity 6 3 4 1 2 1 / domains / optimum / drop activity 6 / optimum",
        "ok / ok / ok / ok / ok / ok / ok / domains 4 / 1: 0 1 2 / 2: 0 1 2 / 3: 0 1 2 / 4: 0 1 2 / infeasible / ok"
        " / optimum 2 4 / 1 0 / 2 1 / 3 2 / 4 2",
    ),
    (
        "a loop",
        10,
        "3; 1; 1; 1; 2; 1",
        "domain 1 / optimum / span 3 0 0 / optimum",
        f"1: {TEN} / infeasible / ok / optimum 0 1 / 1 0",
    ),
    (
        "negative and full spans",
        10,
        "1; 1; 2; -2; 1; 1",
        "fix 1 0 / domain 2 / span 1 7 16 / domain 2",
        f"ok / 2: 0 1 8 9 / ok / 2: {TEN}",
    ),
    ("limited tries", 10, TWO, "try 0 / try 1000000 / try 0", f"stopped none / {BEST} / {BEST}"),
    ("a try within the size", 10, TWO, "fix 1 0 / try 3", f"ok / {BEST}"),
    ("a try within the size of a free event", 10, TWO, "try 30", BEST),
    (
        "a known optimum is told by every try until an edit",
        10,
        TWO,
        "optimum / try 0 / time 1 0 / untime 1 / try 0 / fix 1 3 / try 0 / adopt / try 0",
        f"{BEST} / {BEST} / ok / ok / {BEST} / ok / stopped none / ok / optimum 4 2 / 1 3 / 2 7",
    ),
    (
        "known to be infeasible",
        10,
        TWO,
        "span 1 3 3 / try 0 / adopt / try 0",
        "ok / stopped none / refused 12 infeasible / infeasible",
    ),
    ("an empty domain is infeasible without a node", 10, TWO, "span 1 3 3 / fix 1 0 / try 0", "ok / ok / infeasible"),
    (
        "a cheaper timetable at a later place",
        10,
        "1; 1; 2; 3; 12; 1",
        "try 1 / try 2 / optimum",
        "optimum 0 2 / 1 0 / 2 3 / optimum 0 2 / 1 0 / 2 3 / optimum 0 2 / 1 0 / 2 3",
    ),
    (
        "a stop with the old optimum's timetable",
        10,
        TWO,
        "optimum / weight 1 3 / try 0 / try 0",
        f"{BEST} / ok / stopped 5 2 / 1 0 / 2 4 / stopped 5 2 / 1 0 / 2 4",
    ),
    (
        "a stop with what an earlier one told",
        10,
        f"1; 3; 2; 2; 8; 3 / 2; 3; 2; 8; 14; 3 / 3; 1; 2; 1; 7; 1 / {COPIES}",
        "try 0 / try 3 / try 0 / weight 2 4 / try 0 / fix 1 3 / try 0 / unfix 1 / try 0",
        f"stopped none / stopped 12 3 / {STOPPED} / stopped 12 3 / {STOPPED} / ok / stopped 16 3 / {STOPPED} / ok / stopped none"
        f" / ok / stopped 16 3 / {STOPPED}",
    ),
    (
        "loops that cost, and one that nothing meets",
        10,
        "1; 1; 2; 2; 9; 5 / 2; 2; 1; 3; 8; 4 / 3; 2; 2; 4; 20; 3 / 4; 1; 1; 0; 0; 7",
        "optimum / weight 3 5 / optimum / span 4 1 9 / optimum",
        "optimum 38 2 / 1 0 / 2 2 / ok / optimum 50 2 / 1 0 / 2 2 / ok / infeasible",
    ),
    (
        "the optimum beside a gap of a domain",
        10,
        "1; 1; 2; 0; 6; 1 / 2; 1; 2; 4; 12; 3 / 3; 2; 3; 1; 3; 2 / 4; 3; 1; 1; 9; 2",
        "fix 1 0 / domain 2 / optimum / weight 1 9 / optimum",
        "ok / 2: 0 1 2 4 5 6 / optimum 12 3 / 1 0 / 2 4 / 3 5 / ok / optimum 34 3 / 1 0 / 2 0 / 3 1",
    ),
    (
        "activities that admit all and cost nothing",
        10,
        "1; 1; 2; 3; 12; 0 / 2; 2; 3; 1; 30; 0 / 3; 1; 3; 4; 8; 2 / 4; 3; 4; 0; 9; 0 / 5; 4; 1; 2; 5; 3",
        "optimum / fix 4 3 / optimum",
        "optimum 0 4 / 1 0 / 2 0 / 3 4 / 4 8 / ok / optimum 0 4 / 1 5 / 2 0 / 3 9 / 4 3",
    ),
    (
        "the greatest weights",
        10,
        "1; 1; 2; 1; 9; 1000000000 / 2; 2; 3; 2; 9; 999999999 / 3; 3; 1; 1; 9; 1000000000 / 4; 1; 3; 0; 9; 1",
        "optimum",
        "optimum 6000000003 3 / 1 0 / 2 1 / 3 3",
    ),
    (
        "the first of many that cost nothing",
        10,
        "1; 1; 2; 0; 9; 1 / 2; 2; 1; 0; 9; 1 / 3; 2; 3; 0; 4; 0 / 4; 3; 1; 0; 9; 0",
        "optimum / window 1 3 4 / optimum / fix 3 5 / optimum",
        "optimum 0 3 / 1 0 / 2 0 / 3 0 / ok / optimum 0 3 / 1 3 / 2 3 / 3 3 / ok / optimum 0 3 / 1 3 / 2 3 / 3 5",
    ),
    (
        "the first where events are held in turn",
        10,
        "1; 1; 2; 1; 3; 0 / 2; 2; 3; 1; 3; 0 / 3; 1; 3; 5; 9; 0 / 4; 3; 4; 1; 9; 1 / 5; 4; 1; 1; 9; 1",
        "optimum / fix 4 2 / optimum",
        "optimum 2 4 / 1 0 / 2 3 / 3 6 / 4 7 / ok / optimum 2 4 / 1 3 / 2 6 / 3 9 / 4 2",
    ),
    (
        "refusals and dump",
        10,
        TWO,
        "drop event 1 / add event 1 / unfix 1 / dump",
        "refused 3 event 1 is used by activity 1 / refused 1 event 1 exists / refused 9 event 1 is not fixed"
        f" / {SCRIPT}",
    ),
    (
        "the dump replayed",
        10,
        NOTHING,
        f"{SCRIPT} / dump / optimum / fix 1 0 / domains",
        f"ok / ok / ok / ok / {SCRIPT} / {BEST} / ok / domains 2 / 1: 0 / 2: 4 5",
    ),
    (
        "a lone event dumped",
        10,
        NOTHING,
        "add event 7 / fix 7 3 / dump",
        "ok / ok / # period 10 lines 2 / add event 7 / fix 7 3",
    ),
    (
        "stored run",
        60,
        NOTHING,
        "add event 2 / add event 1 / add activity 1 1 2 3 5 2 / optimum",
        "ok / ok / ok / optimum 0 2 / 1 0 / 2 3",
    ),
    (
        "working timetable",
        10,
        TWO,
        "time 1 0 / time 2 12 / cost / time 2 3 / cost / untime 2 / untime 2 / adopt / cost / span 1 3 3 / adopt / cost",
        "ok / refused 4 time 12 is out of range / refused 11 event 2 has no time / ok / cost 3 / ok"
        " / refused 11 event 2 has no time / ok / cost 4 / ok / refused 12 infeasible / cost 4",
    ),
    (
        "violations with a fixed event",
        10,
        TWO,
        "fix 1 5 / time 1 0 / time 2 3 / violations",
        "ok / ok / ok / violations 2 / activity 2 / event 1",
    ),
    (
        "tensions, violations and cost",
        10,
        TWO,
        "time 1 0 / time 2 3 / tensions / violations / cost",
        "ok / ok / tensions 2 / 1 3 0 / 2 7 3 / violations 1 / activity 2 / cost 3",
    ),
    ("a fixed time moved", 10, TWO, "fix 1 0 / fix 1 1 / domains", "ok / ok / domains 2 / 1: 1 / 2: 5 6"),
    (
        "a window that wraps",
        10,
        TWO,
        "window 1 9 3 / domains / optimum / dump",
        f"ok / domains 2 / 1: 0 1 9 / 2: 3 4 5 6 / {BEST} / # period 10 lines 5 / add event 1 / add event 2"
        " / window 1 9 3 / add activity 1 1 2 3 5 2 / add activity 2 2 1 4 6 1",
    ),
    (
        "a window narrowed keeps the optimum, and a moved one does not",
        10,
        TWO,
        "window 1 9 3 / optimum / window 1 0 2 / domains / try 0 / optimum / window 1 1 2 / domains / try 0 / optimum",
        f"ok / {BEST} / ok / domains 2 / 1: 0 1 / 2: 4 5 6 / {BEST} / {BEST} / ok / domains 2 / 1: 1 2 / 2: 5 6 7"
        " / stopped none / optimum 4 2 / 1 1 / 2 5",
    ),
    (
        "a time outside the window",
        10,
        TWO,
        "window 1 1 2 / time 1 0 / time 2 4 / violations / time 1 2 / time 2 6 / violations",
        "ok / ok / ok / violations 1 / event 1 / ok / ok / violations 0",
    ),
    (
        "a full window is kept",
        10,
        TWO,
        "window 1 0 10 / domain 1 / dump / optimum / unfix 1 / try 0 / unfix 1",
        f"ok / 1: {TEN} / # period 10 lines 5 / add event 1 / add event 2 / window 1 0 10 / add activity 1 1 2 3 5 2"
        f" / add activity 2 2 1 4 6 1 / {BEST} / ok / {BEST} / refused 9 event 1 is not fixed",
    ),
    (
        "a window of one residue is a fixed time, and a fixed time replaces a window",
        10,
        NOTHING,
        "add event 1 / add event 2 / window 1 4 1 / window 2 9 3 / fix 2 0 / dump",
        "ok / ok / ok / ok / ok / # period 10 lines 4 / add event 1 / add event 2 / fix 1 4 / fix 2 0",
    ),
    (
        "infeasible stays known while windows admit nothing new",
        10,
        TWO,
        "span 1 3 3 / optimum / window 1 0 10 / try 0 / window 1 4 3 / try 0 / window 1 5 3 / domains / unfix 1 / try 0",
        "ok / infeasible / ok / infeasible / ok / infeasible / ok / domains 2 / 1: / 2: / ok / stopped none",
    ),
    (
        "a dropped event forgets its window",
        10,
        NOTHING,
        "add event 1 / window 1 9 3 / drop event 1 / add event 1 / domain 1 / unfix 1",
        f"ok / ok / ok / ok / 1: {TEN} / refused 9 event 1 is not fixed",
    ),
    (
        "the old optimum is no longer first",
        10,
        "1; 1; 2; 3; 5; 0",
        "fix 1 5 / optimum / unfix 1 / optimum",
        "ok / optimum 0 2 / 1 5 / 2 0 / ok / optimum 0 2 / 1 0 / 2 3",
    ),
    (
        "ends changed",
        10,
        TWO,
        "add event 3 / ends 2 3 1 / optimum / drop event 2",
        "ok / ok / optimum 0 3 / 1 0 / 2 3 / 3 6 / refused 3 event 2 is used by activity 1",
    ),
    (
        "edits that keep the answer or change it",
        10,
        TWO,
        "optimum / span 1 3 4 / fix 1 0 / add activity 3 1 2 4 9 7 / optimum / unfix 1 / drop activity 3 / span 1 3 5"
        " / weight 1 1 / optimum / weight 1 3 / optimum / fix 1 3 / weight 1 2 / optimum",
        f"{BEST} / ok / ok / ok / {BEST} / ok / ok / ok / ok / optimum 3 2 / 1 0 / 2 4 / ok / optimum 5 2 / 1 0 / 2 4"
        " / ok / ok / optimum 4 2 / 1 3 / 2 7",
    ),
    (
        "a dropped event forgets its time and its fixed time",
        10,
        NOTHING,
        "add event 1 / time 1 3 / fix 1 4 / violations / drop event 1 / add event 1 / violations / unfix 1",
        "ok / ok / ok / violations 1 / event 1 / ok / ok / refused 11 event 1 has no time"
        " / refused 9 event 1 is not fixed",
    ),
    (
        "the least event without a time, lone ones too",
        10,
        TWO,
        "add event 0 / tensions / time 0 9 / violations / time 1 0 / cost / time 2 4 / cost",
        "ok / refused 11 event 0 has no time / ok / refused 11 event 1 has no time / ok"
        " / refused 11 event 2 has no time / ok / cost 4",
    ),
]

# Refusals of lines at period 10 over TWO, with event 3 added and event 1 fixed; the first that applies is reported.
REFUSALS = {
    "add event 1": "refused 1 event 1 exists",
    "drop event 9": "refused 2 no event 9",
    "drop event 1": "refused 3 event 1 is used by activity 1",
    "drop event 2": "refused 3 event 2 is used by activity 1",
    "fix 9 0": "refused 2 no event 9",
    "fix 9 65535": "refused 2 no event 9",
    "fix 1 10": "refused 4 time 10 is out of range",
    "fix 1 65535": "refused 4 time 65535 is out of range",
    "window 9 0 1": "refused 2 no event 9",
    "window 9 10 0": "refused 2 no event 9",
    "window 1 10 0": "refused 4 time 10 is out of range",
    "window 1 65535 1": "refused 4 time 65535 is out of range",
    "window 1 0 0": "refused 13 length 0 is out of range",
    "window 1 0 11": "refused 13 length 11 is out of range",
    "window 1 9 65535": "refused 13 length 65535 is out of range",
    "unfix 9": "refused 2 no event 9",
    "unfix 2": "refused 9 event 2 is not fixed",
    "add activity 1 8 9 0 0 0": "refused 5 activity 1 exists",
    "add activity 3 8 9 0 0 0": "refused 2 no event 8",
    "add activity 3 1 9 0 0 0": "refused 2 no event 9",
    "drop activity 3": "refused 6 no activity 3",
    "span 3 0 0": "refused 6 no activity 3",
    "weight 3 0": "refused 6 no activity 3",
    "ends 3 8 9": "refused 6 no activity 3",
    "ends 1 8 9": "refused 2 no event 8",
    "ends 1 1 9": "refused 2 no event 9",
    "time 9 65535": "refused 2 no event 9",
    "time 1 10": "refused 4 time 10 is out of range",
    "untime 9": "refused 2 no event 9",
    "untime 1": "refused 11 event 1 has no time",
    "domain 9": "refused 2 no event 9",
    "tensions": "refused 11 event 1 has no time",
    "violations": "refused 11 event 1 has no time",
    "cost": "refused 11 event 1 has no time",
    "drop event 0999999999": "refused 2 no event 999999999",
}

# Lines that are not commands, and those that are invalid by their form alone.
FAULTS = {
    "add": "fault unknown command",
    "drop": "fault unknown command",
    "add 1": "fault unknown command",
    "add events 1": "fault unknown command",
    "drop x": "fault unknown command",
    "Fix 1 2": "fault unknown command",
    "COST": "fault unknown command",
    "fixed 1 2": "fault unknown command",
    "windows 1 2 3": "fault unknown command",
    "unwindow 1": "fault unknown command",
    "x" * 4_096: "fault unknown command",
    "\xff": "fault unknown command",
    "\ufeffcost": "fault unknown command",
    "\x0ccost": "fault unknown command",
    "\0": "fault unknown command",
    "quit": "fault unknown command",
    "help": "fault unknown command",
    "1; 1; 2; 3; 5; 2": "fault unknown command",
    "add event": "fault wrong number of words",
    "add event 1 2": "fault wrong number of words",
    "add activity 1 1 2 3 5": "fault wrong number of words",
    "fix 1": "fault wrong number of words",
    "fix x": "fault wrong number of words",
    "window 1 2": "fault wrong number of words",
    "window 1 2 3 4": "fault wrong number of words",
    "fix 1 2 # late": "fault wrong number of words",
    "cost 1": "fault wrong number of words",
    "dump #": "fault wrong number of words",
    "try": "fault wrong number of words",
    "fix x 1": "fault word 2 is not a number",
    "fix x y": "fault word 2 is not a number",
    "fix 1 y": "fault word 3 is not a number",
    "fix 1000000000 y": "fault word 2 is out of range",
    "fix 1 2.0": "fault word 3 is not a number",
    "fix 1 0x2": "fault word 3 is not a number",
    "fix 1 +-2": "fault word 3 is not a number",
    "fix 1 -": "fault word 3 is not a number",
    "weight 1 2.0": "fault word 3 is not a number",
    "add event 1000000000": "fault word 3 is out of range",
    "add event x": "fault word 3 is not a number",
    "fix 1 70000": "fault word 3 is out of range",
    "fix 1 65536": "fault word 3 is out of range",
    "fix 1 -1": "fault word 3 is out of range",
    "fix 1 " + "9" * 4_000: "fault word 3 is out of range",
    "fix 1 18446744073709551616": "fault word 3 is out of range",
    "window x y z": "fault word 2 is not a number",
    "window 1 y 3": "fault word 3 is not a number",
    "window 1 2 3.0": "fault word 4 is not a number",
    "window 1 65536 x": "fault word 3 is out of range",
    "window 1 2 65536": "fault word 4 is out of range",
    "window 1 2 -1": "fault word 4 is out of range",
    "time 1 65536": "fault word 3 is out of range",
    "weight 1 1000000001": "fault word 3 is out of range",
    "weight 1 -1": "fault word 3 is out of range",
    "span 1 -1000001 0": "fault word 3 is out of range",
    "span 1 0 1000001": "fault word 4 is out of range",
    "span 1 5 3": "fault lower bound above upper bound",
    "span 1 5 -1000001": "fault word 4 is out of range",
    "add activity 1 1 2 5 3 0": "fault lower bound above upper bound",
    "add activity 1 1 2 5 3 x": "fault word 8 is not a number",
    "try 1000000000001": "fault word 2 is out of range",
    "try -1": "fault word 2 is out of range",
    "domain -1": "fault word 2 is out of range",
    "domain 1000000000": "fault word 2 is out of range",
}

# Lines without a reply.
SILENT = ["", " ", "\t \r", "# text", "#", " \t#cost", "#add event 9", "\r", " " * 4_096, "#" + "x" * 4_095]

# Other spellings of commands over TWO at period 10, with their replies.
SPELLINGS = {
    "fix 1 " + "0" * 4_000: "ok",
    "fix 1 -0": "ok",
    "window +1 -0 010": "ok",
    "\t fix\t1 \r +007 \r": "ok",
    "add  event\t9\r": "ok",
    "untime\r2": "refused 11 event 2 has no time",
    "domain\t+01": f"1: {TEN}",
    "span 1 -1000000 1000000": "ok",
    "weight 1 1000000000": "ok",
    "try 1000000000000": BEST,
}
