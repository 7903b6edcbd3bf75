#!/usr/bin/env python3
"""Answers commands over files, like pespbench: the same replies, the same line for a fault, the same exit status.

usage: answer.py LIBRARY PERIOD ACTIVITIES FIXED TIMES <COMMANDS, with `-` for a missing file

LIBRARY is the shared library. pespbench.h explains the numbers.
"""

import ctypes
import os
import re
import sys


class Told(ctypes.Structure):
    """The report of a call."""

    _fields_ = [
        ("length", ctypes.c_uint64),
        ("place", ctypes.c_uint64),
        ("status", ctypes.c_uint32),
        ("reason", ctypes.c_uint32),
        ("field", ctypes.c_uint32),
    ]


LONGEST_FILE = 67_108_864
FILES = ["activities", "fixed", "times"]
REASONS = ["wrong number of fields", "field {} is not a number", "field {} is out of range", "weight has a fraction"]
REASONS += ["lower bound above upper bound", "activity number is repeated", "event is repeated"]
REASONS += ["event is not in the instance", "too many events", "too many activities", "out of memory"]
ENDINGS = ["commands cannot be read", "out of memory for the replies", "out of memory at line {}"]
ENDINGS += ["line {} is longer than 4096 bytes", "more than 1000000 lines", "the period is not 2 to 1440"]


def loaded(path):
    """The library's one call."""
    call = ctypes.CDLL(str(path)).pesp_answer
    slices = [ctypes.c_char_p, ctypes.c_size_t] * 5
    call.argtypes = [ctypes.c_uint16, *slices, ctypes.POINTER(Told)]
    call.restype = None
    return call


def answer(call, period, activities=b"", fixed=b"", times=b"", commands=b""):
    """The replies, and the report on how the run ended."""
    given = [part for text in (activities, fixed, times, commands) for part in (text, len(text))]
    told, room = Told(), 1 << 16
    while True:
        out = ctypes.create_string_buffer(room)
        call(period, *given, out, room, ctypes.byref(told))
        if told.length <= room:
            return out.raw[: told.length], told
        room = told.length


def fault_of(told):
    """The text of a fault; None if there is none."""
    if told.status == 0:
        return None
    if told.status <= len(FILES):
        reason = REASONS[told.reason - 1].format(told.field)
        return f"{FILES[told.status - 1]} file, record {told.place}: {reason}"
    return ENDINGS[told.status - len(FILES) - 1].format(told.place)


class Refused(Exception):
    """Why the program would refuse the files or the words, and its exit status."""

    def __init__(self, status, text):
        super().__init__(text)
        self.status = status


def content(path, name):
    """The bytes of a file. Raises Refused."""
    if path == "-":
        return b""
    try:
        with open(path, "rb") as file:
            data = file.read(LONGEST_FILE + 1)
    except (OSError, ValueError):
        raise Refused(1, f"pespbench: {name} file cannot be read") from None
    if len(data) > LONGEST_FILE:
        raise Refused(1, f"pespbench: {name} file is too long")
    return data


def period_of(word):
    """The period of a word. Raises Refused."""
    found = re.fullmatch("[+]?0*([0-9]{1,4})", word)
    if not found or not 2 <= int(found[1]) <= 1440:
        raise Refused(2, "answer.py: PERIOD is a whole number from 2 to 1440")
    return int(found[1])


def whole_lines(descriptor):
    """The bytes of a descriptor, and whether it reached its end; if not, the complete lines before that."""
    pieces = []
    try:
        while not pieces or pieces[-1]:
            pieces.append(os.read(descriptor, 1 << 20))
        return b"".join(pieces), True
    except OSError:
        data = b"".join(pieces)
        return data[: data.rfind(b"\n") + 1], False


def write(descriptor, data):
    """Writes all. Raises Refused."""
    rest = memoryview(data)
    try:
        while rest:
            rest = rest[os.write(descriptor, rest) :]
    except OSError:
        raise Refused(1, "pespbench: replies cannot be written") from None


def run(library, period, *paths):
    """Answers standard input. Raises Refused."""
    period = period_of(period)
    files = [content(path, name) for path, name in zip(paths, FILES)]
    commands, is_whole = whole_lines(0)
    replies, told = answer(loaded(library), period, *files, commands)
    write(1, replies)
    fault = fault_of(told) or (None if is_whole else ENDINGS[0])
    if fault is not None:
        raise Refused(1, f"pespbench: {fault}")


def main(words):
    try:
        if len(words) != 5:
            raise Refused(2, "usage: answer.py LIBRARY PERIOD ACTIVITIES FIXED TIMES <COMMANDS")
        run(*words)
        return 0
    except Refused as refused:
        print(refused, file=sys.stderr)
        return refused.status


if __name__ == "__main__":
    sys.exit(main(sys.argv[1:]))
