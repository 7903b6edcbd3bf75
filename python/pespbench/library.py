"""The library in process: where it is searched for, and its calls, which embedded/pespbench.h explains."""

from __future__ import annotations

import ctypes
import ctypes.util
import functools
import os
from contextlib import suppress
from pathlib import Path
from typing import Any, Callable, Dict, Iterator, NamedTuple, Optional, Union

from pespbench.faults import BadReply, Ended, NoLibrary
from pespbench.process import find_program

AnyPath = Union[str, "os.PathLike[str]", None]
NAME = "libpespbench.so"
HOW = "tools/library and tools/install make it; name it by library=, or by PESPBENCH_LIB"


def find_library(library: AnyPath = None, program: AnyPath = None) -> str:
    """The library to load: the first of these that is given or exists.

    1. The one given, a file or the folder that has libpespbench.so.
    2. That of the environment's PESPBENCH_LIB, in the same way.
    3. `lib/libpespbench.so` beside the `bin` of the program that would run, and beside the `share` of an installed
       package, where tools/install puts them.
    4. The one that the system's loader knows as `pespbench`.

    Raises NoLibrary if there is none, or if one named by 1 or 2 is missing.
    """
    named = library if library is not None else os.environ.get("PESPBENCH_LIB")
    if named:
        path = Path(named) / NAME if os.path.isdir(named) else Path(named)
        if not path.is_file():
            raise NoLibrary(f"there is no library {path}; {HOW}")
        return os.path.abspath(path)
    for place in installed(program):
        if place.is_file():
            return str(place)
    known = ctypes.util.find_library("pespbench")
    if known is None:
        raise NoLibrary(f"there is no {NAME} beside the program, nor does the system know one; {HOW}")
    return known


def installed(program: AnyPath) -> Iterator[Path]:
    """Where tools/install has put the library, if it installed the program or this package."""
    with suppress(FileNotFoundError):
        found = Path(find_program(program))
        yield from (path.parent.parent / "lib" / NAME for path in (found, found.resolve()))
    package = Path(__file__).resolve().parent
    if package.parts[-4:-1] == ("share", "pespbench", "python"):
        yield package.parents[3] / "lib" / NAME


class Told(ctypes.Structure):
    """The report of a call, `struct pesp_told` of the header."""

    _fields_ = [
        ("length", ctypes.c_uint64),
        ("place", ctypes.c_uint64),
        ("status", ctypes.c_uint32),
        ("reason", ctypes.c_uint32),
        ("field", ctypes.c_uint32),
    ]


class ToldFound(ctypes.Structure):
    """The result of a search, `struct pesp_found` of the header."""

    _fields_ = [
        ("cost", ctypes.c_uint64),
        ("lower_bound", ctypes.c_uint64),
        ("state", ctypes.c_uint32),
        ("goes_on", ctypes.c_uint32),
    ]


class Handle(ctypes.Structure):
    """A session, which only the library reads and writes."""

    _fields_ = [("at", ctypes.c_void_p), ("is_open", ctypes.c_bool)]


class Calls(NamedTuple):
    """The calls on a session. Addresses are numbers, which are the fastest to pass."""

    open: Callable[..., None]
    ask: Callable[..., None]
    cost: Callable[..., None]
    close: Callable[..., None]
    # A library may lack these; then lines do their work.
    search: Optional[Callable[..., None]] = None
    try_move: Optional[Callable[..., None]] = None
    price: Optional[Callable[..., None]] = None
    price_tension: Optional[Callable[..., None]] = None


ADDRESS, LENGTH = ctypes.c_void_p, ctypes.c_size_t
BYTES = [ctypes.c_char_p, LENGTH]
PRICED = [ctypes.c_uint32, ctypes.c_uint16, ctypes.c_uint64, ADDRESS, ADDRESS]
PARAMETERS = {
    "pesp_open": [ctypes.c_uint16, *BYTES, *BYTES, *BYTES, ADDRESS, ADDRESS],
    "pesp_ask": [ADDRESS, *BYTES, ADDRESS, LENGTH, ADDRESS],
    "pesp_cost": [ADDRESS, ADDRESS, ADDRESS],
    "pesp_close": [ADDRESS],
    "pesp_search": [ADDRESS, ctypes.c_uint64, ADDRESS, LENGTH, ADDRESS, ADDRESS],
    "pesp_try_move": [ADDRESS, ctypes.c_uint32, ctypes.c_uint16, ADDRESS, ADDRESS],
    "pesp_price": [ADDRESS, *PRICED],
    "pesp_price_tension": [ADDRESS, *PRICED],
}
NEWER = ("pesp_search", "pesp_try_move", "pesp_price", "pesp_price_tension")


@functools.lru_cache(maxsize=None)
def loaded(path: str) -> Calls:
    """The calls of the library at a path. Raises NoLibrary if it is not one, or an older one."""
    try:
        library = ctypes.CDLL(path)
    except OSError as fault:
        raise NoLibrary(f"{path} is no library that can be loaded: {fault}") from None
    calls: Dict[str, Any] = {name: getattr(library, name, None) for name in PARAMETERS}
    missing = [name for name, call in calls.items() if call is None and name not in NEWER]
    if missing:
        raise NoLibrary(f"{path} is no library of this version of pespbench: it has no {missing[0]}")
    for name, call in calls.items():
        if call is not None:
            call.argtypes, call.restype = PARAMETERS[name], None
    return Calls(*calls.values())


DONE, MEMORY, LONG_LINE = 0, 6, 7
NOTHING_YET, BEST_SO_FAR, OPTIMUM, NO_TIMETABLE = range(4)
FILES = ("activities", "fixed", "times")
REASONS = (
    "wrong number of fields", "field {} is not a number", "field {} is out of range", "weight has a fraction",
    "lower bound above upper bound", "activity number is repeated", "event is repeated", "event is not in the instance",
    "too many events", "too many activities", "out of memory",
)  # fmt: skip


def ended_by(told: Told) -> Union[Ended, BadReply]:
    """The exception for a status other than DONE, with the program's text; BadReply for an impossible one."""
    if told.status == MEMORY:
        return fault("out of memory")
    if told.status == LONG_LINE:
        return fault("a line is longer than 4096 bytes")
    if 1 <= told.status <= len(FILES) and 1 <= told.reason <= len(REASONS):
        reason = REASONS[told.reason - 1].format(told.field)
        return fault(f"{FILES[told.status - 1]} file, record {told.place}: {reason}")
    return BadReply(f"status {told.status} of the library")


def fault(text: str) -> Ended:
    """The end of a program with a fault."""
    return Ended(1, f"pespbench: {text}")
