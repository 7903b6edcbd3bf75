"""Libraries that are wrong, each in one way, which the tests must find."""

from typing import Dict, Tuple

# By the numbers of wrong.c: what is wrong, the instruments that find it, and a word of the report.
WRONG: Dict[int, Tuple[str, str, str]] = {
    1: ("a byte is written after the room", "sanitizers memcheck", "heap-buffer-overflow|Invalid write"),
    2: ("a byte is read after the line", "sanitizers memcheck", "heap-buffer-overflow|Invalid read"),
    3: ("memory is read that was given back", "sanitizers memcheck", "heap-use-after-free|Invalid read"),
    4: ("memory is kept", "sanitizers memcheck", "LeakSanitizer|definitely lost|memory is kept"),
    5: ("memory is read that was never set", "memcheck", "uninitialised"),
    6: ("two threads share a count", "threads", "data race"),
    7: ("a reply has another byte", "sanitizers", "wanted b'"),
    8: ("a length is that of the room", "sanitizers", r"wanted \("),
    9: ("a call that is refused memory does its work", "sanitizers", "has changed the session"),
    10: ("a lower bound is above the optimum", "sanitizers", "the optimum is|and now"),
    11: ("a timetable has another cost", "sanitizers", "the program tells|the optimum is|and now"),
    12: ("a time is lost", "sanitizers", "wanted"),
    13: ("the library's own code reads a byte after the line", "sanitizers memcheck", "heap-buffer-overflow|Invalid read"),
    14: ("a price is another one", "sanitizers", "the optimum is"),
    15: ("a price leaves its event at the time", "sanitizers", "wanted|the optimum is"),
    16: ("a price that is refused memory leaves its event at the time", "sanitizers", "has changed the session"),
    17: ("a price is of another tension", "sanitizers", "the optimum is"),
    18: ("a price leaves its activity at the tension", "sanitizers", "wanted|the optimum is"),
}
# Not for a library without prices.
OF_PRICES = [14, 15, 16, 17, 18]
