"""The header of the library in process agrees with the crate: the order of each call's parameters, the layouts of a report, of a
search's result and of a session, and the numbers. A C file of assertions is made from the crate's sources, and a C compiler checks
it against the header."""

import re
import shutil
from typing import Dict, Iterator, List, Tuple

from tests.harness import TOP, Suite, run

CRATE = TOP / "crates/pesp_embedded/src"
HEADER = TOP / "embedded/pespbench.h"
# The types of parameters and fields: those of C, and the bytes of a field.
PARAMETERS = {
    "u16": ["uint16_t"],
    "u32": ["uint32_t"],
    "u64": ["uint64_t"],
    "&[u8]": ["const uint8_t *", "size_t"],
    "&mut [u8]": ["uint8_t *", "size_t"],
    "&mut [u16]": ["uint16_t *", "size_t"],
    "&mut [u32]": ["uint32_t *", "size_t"],
    "&mut Told": ["struct pesp_told *"],
    "&mut Found": ["struct pesp_found *"],
    "&mut Session": ["struct pesp_session *"],
    "&mut u64": ["uint64_t *"],
    "&mut i64": ["int64_t *"],
}
FIELDS = {"u64": 8, "u32": 4}
# The header's words for those of the crate that differ by more than capitals.
STATUSES = {
    "Ok": "PESP_DONE",
    "Activities": "PESP_FAULT_OF_ACTIVITIES",
    "Fixed": "PESP_FAULT_OF_FIXED",
    "Times": "PESP_FAULT_OF_TIMES",
    "Read": "PESP_NOT_READ",
    "Write": "PESP_NOT_WRITTEN",
    "Memory": "PESP_MEMORY",
    "LineTooLong": "PESP_LONG_LINE",
    "TooManyLines": "PESP_MANY_LINES",
}
REASONS = {"Memory": "PESP_READING_MEMORY"}
STATES = {
    "None": "PESP_NOTHING_YET",
    "Some(best)": "PESP_BEST_SO_FAR",
    "Answer::Optimal { cost, .. }": "PESP_OPTIMUM",
    "Answer::Infeasible": "PESP_NO_TIMETABLE",
}


def calls() -> Dict[str, List[Tuple[str, str]]]:
    """For each call the names and types of its parameters, except the allocator, which no caller sees."""
    text = "".join((CRATE / name).read_text() for name in ["lib.rt", "numbers.rt", "searching.rt", "pricing.rt"])
    found = re.findall(r'pub extern "C" fn (\w+)\((.*?)\)\s+ensures', text, re.S)
    given = {call: re.findall(r"(\w+): ([^,]+?)(?:,|$)", listed) for call, listed in found}
    return {call: [each for each in listed if each[1] != "Global"] for call, listed in given.items()}


def fields(name: str) -> List[Tuple[str, str]]:
    """The names and types of the fields of `Told` or `Found`, in their order."""
    text = (CRATE / f"{name.lower()}.rt").read_text()
    return re.findall(r"pub (\w+): (\w+),", found_in(rf"pub struct {name} \{{(.*?)\n\}}", text))


def found_in(pattern: str, text: str) -> str:
    """The text in a pattern's group in a text that contains it."""
    found = re.search(pattern, text, re.S)
    assert found is not None
    return found[1]


def in_capitals(name: str) -> str:
    return "PESP_" + re.sub(r"(?<=[a-z])(?=[A-Z])", "_", name).upper()


def numbers(told: str) -> Dict[str, int]:
    """The header's words with the crate's numbers."""
    ended = re.findall(r"(Ok|RunFault::(\w+)).*?=> Told::ended\(\w+, (\d+),", told)
    found = {STATUSES[name or whole]: int(number) for whole, name, number in ended}
    found["PESP_NO_PERIOD"] = int(found_in(r"fn no_period.*?Told::ended\(0, (\d+), 0\)", told))
    found.update({STATUSES[name]: int(number) for name, number in re.findall(r"Source::(\w+) => (\d+),", told)})
    found.update(faults())
    found.update(states())
    reasons = re.findall(r"FaultKind::(\w+)(?:\(_\))? => (\d+),", told)
    found.update({REASONS.get(name, in_capitals(name)): int(number) for name, number in reasons})
    return found


def faults() -> Dict[str, int]:
    """The same for calls on a session; an end that a run shares has the run's word and number."""
    text = (CRATE / "fault.rt").read_text()
    told = re.findall(r"Fault::(\w+) => Told::ended\(0, (\d+), 0\),", text)
    told.append(("Refused", found_in(r"status: (\d+),", text)))
    return {STATUSES.get(name, in_capitals(name)): int(number) for name, number in told}


def states() -> Dict[str, int]:
    """The same for the result of a search."""
    arms = re.findall(r"^ +(.+) => \([\w.*]+, (\d+)\),$", (CRATE / "found.rt").read_text(), re.M)
    return {STATES[arm]: int(number) for arm, number in arms}


def layout_of(name: str) -> Iterator[str]:
    """The offsets of the fields of `Told` or `Found`."""
    struct, place = f"struct pesp_{name.lower()}", 0
    for field, kind in fields(name):
        yield f'_Static_assert(offsetof({struct}, {field}) == {place}, "{field}");'
        yield f'_Static_assert(sizeof((({struct} *)0)->{field}) == {FIELDS[kind]}, "size of {field}");'
        place += FIELDS[kind]
    yield f'_Static_assert(sizeof({struct}) == {-(-place // 8) * 8}, "{name}");'


def assertions() -> Iterator[str]:
    """A C file that compiles only if the header agrees with the crate."""
    told = (CRATE / "told.rt").read_text()
    yield '#include "pespbench.h"'
    yield from layout_of("Told")
    yield from layout_of("Found")
    yield from (f'_Static_assert({name} == {number}, "{name}");' for name, number in numbers(told).items())
    none = found_in(r"NO_TIME: u16 = ([\d_]+);", (CRATE / "lists.rt").read_text()).replace("_", "")
    yield f'_Static_assert(PESP_NO_TIME == {none}, "PESP_NO_TIME");'
    yield '_Static_assert(offsetof(struct pesp_session, at) == 0, "at");'
    yield '_Static_assert(offsetof(struct pesp_session, is_open) == 8, "is_open");'
    yield '_Static_assert(sizeof(struct pesp_session) == 16 && sizeof(bool) == 1, "a session");'
    for call, parameters in calls().items():
        kinds = ", ".join(kind for _, rust in parameters for kind in PARAMETERS[rust])
        yield f"void (*const call_{call})({kinds}) = {call};"


def names_of_the_header() -> Dict[str, List[str]]:
    """For each call the names of its parameters, without those of lengths."""
    found = {}
    for call, listed in re.findall(r"void (\w+)\((.*?)\);", HEADER.read_text(), re.S):
        names = [each.split()[-1].lstrip("*") for each in listed.split(",")]
        found[call] = [name for name in names if not name.endswith("_length")]
    return found


def layout_in_c(suite: Suite) -> None:
    """The order of parameters, and each number in the header; offsets and sizes, if there is a C compiler."""
    told = (CRATE / "told.rt").read_text()
    names = {call: [name for name, _ in parameters] for call, parameters in calls().items()}
    suite.note("parameters", {"names": names}, {"names": names_of_the_header()})
    listed = set(re.findall(r"^    (PESP_\w+) = \d+", HEADER.read_text(), re.M))
    suite.note("numbers", {"words": sorted(numbers(told))}, {"words": sorted(listed)})
    compiler = shutil.which("gcc") or shutil.which("cc")
    if compiler:
        file = suite.file("layout.c", "\n".join(assertions()).encode() + b"\n")
        words = [compiler, "-std=c11", "-Wall", "-Wextra", "-Wpedantic", "-Werror", "-fsyntax-only", f"-I{HEADER.parent}", file]
        suite.note("the header", {"status": 0, "standard error": b""}, run(words))


GROUPS = [layout_in_c]
