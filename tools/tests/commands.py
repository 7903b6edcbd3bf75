"""Commands by the table, compared with the model."""

import copy
from typing import Any, Set, Tuple

from tests import model
from tests.change_cases import RESTORED
from tests.changes import restored
from tests.command_cases import CASES, FAULTS, REFUSALS, SILENT, SPELLINGS, TWO
from tests.file_cases import TWO as TWO_FILE
from tests.harness import Suite
from tests.parsing import command_of
from tests.rules import read_activities


def text_of(lines: str) -> bytes:
    """The bytes of lines that are separated by ` / `; a letter represents the byte of its number."""
    joined = "".join(f"{line}\n" for line in lines.split(" / ")) if lines else ""
    return joined.encode("latin-1" if joined.isprintable() or "\xff" in joined else "utf-8")


def model_of(period: int, activities: bytes) -> model.Model:
    rows, _ = read_activities(period, activities)
    return model.Model(period, rows)


def both(suite: Suite, name: str, period: int, activities: bytes, given: bytes, output: bytes, **wanted: Any) -> None:
    """One case of the program, and the same of the model, so that the model is known to be right there."""
    words = ["--period", str(period), suite.file("activities", activities)]
    suite.case(name, words, given=given, output=output, **wanted)


def command_cases(suite: Suite) -> None:
    for name, period, activities, lines, replies in CASES:
        both(suite, name, period, text_of(activities), text_of(lines), text_of(replies))


def model_cases(suite: Suite) -> None:
    """The model by the same table; for a `try`, whether the reply is legal."""
    for name, period, activities, lines, replies in CASES:
        bench, rest, wrong = model_of(period, text_of(activities)), replies.split(" / "), []
        for line in lines.split(" / "):
            wanted = bench.reply(line.encode())
            if line.startswith("try") and rest[0].startswith("stopped"):
                wanted = rest[: 1 + (0 if rest[0] == "stopped none" else int(rest[0].split()[2]))]
                wrong += [] if bench.may_try(int(line.split()[1]), wanted) else [line]
            wrong += [] if rest[: len(wanted)] == wanted else [line]
            rest = rest[len(wanted) :]
        suite.note(f"the model: {name}", {"wrong": [], "left": []}, {"wrong": wrong, "left": rest})


def pairs_of(rows: str) -> Set[Tuple[int, int]]:
    """The pairs of rows as the tables write them: ` / ` separates events."""
    events = [row.split(": ") for row in rows.split(" / ") if row]
    return {(int(event), int(residue)) for event, residues in events for residue in residues.split()}


def model_restores(suite: Suite) -> None:
    """The model by a table of edits with their restored pairs."""
    for edits in RESTORED:
        bench = model_of(10, TWO_FILE)
        for line, rows in edits:
            before = copy.deepcopy(bench)
            bench.reply(line.encode())
            came = restored(before, bench, *command_of(line.encode()))
            suite.note(f"the model restores: {line}", {"pairs": pairs_of(rows)}, {"pairs": came})


def refused_lines(suite: Suite) -> None:
    before = ["add event 3", "fix 1 0"]
    script = f"# period 10 lines 6 / add event 1 / add event 2 / add event 3 / fix 1 0 / {script_of_two()}"
    for line, reply in REFUSALS.items():
        given = text_of(" / ".join([*before, line, "dump"]))
        both(suite, f"refused: {line}", 10, TWO_FILE, given, text_of(f"ok / ok / {reply} / {script}"))
        bench = model_of(10, TWO_FILE)
        came = [bench.reply(word.encode()) for word in [*before, line]][-1]
        suite.note(f"the model: refused: {line}", {"reply": [reply]}, {"reply": came})


def script_of_two() -> str:
    return " / ".join("add activity " + row.replace("; ", " ") for row in TWO.split(" / "))


def bytes_of(line: str) -> bytes:
    """The bytes of a line of the tables: one byte for each letter, except for the byte order mark."""
    return line.encode("utf-8" if "\ufeff" in line else "latin-1")


def faulty_lines(suite: Suite) -> None:
    for line, reply in FAULTS.items():
        given = b"cost\n" + bytes_of(line) + b"\ndump"
        output = text_of(f"cost 0 / {reply} / # period 60 lines 0")
        suite.case(f"no command: {line[:40]!r}", [], given=given, output=output)
        came = model_of(60, b"").reply(bytes_of(line))
        suite.note(f"the model: no command: {line[:40]!r}", {"reply": [reply]}, {"reply": came})
    for line in SILENT:
        suite.case(f"no reply: {line[:20]!r}", [], given=f"{line}\ncost\n{line}".encode(), output=b"cost 0\n")
    for line, reply in SPELLINGS.items():
        both(suite, f"spelling: {line[:40]!r}", 10, TWO_FILE, bytes_of(line), text_of(reply))


def files_and_commands(suite: Suite) -> None:
    """The network of the files: fixed times, times modulo the period, and times of other events, which are ignored."""
    activities = suite.file("two", TWO_FILE)
    times = suite.file("times", b"1; -1\n7; 23\n")
    words = ["--period", "10", "--times", times, activities]
    suite.case("times of an event outside", words, given=b"cost\n", output=b"refused 11 event 2 has no time\n")
    asked = b"add event 7\ncost\ntime 2 3\ncost\ntime 7 0\ncost\ntensions\n"
    # Event 1 is at 9 and event 2 at 3: slacks 1 and 2, cost 2 * 1 + 1 * 2 = 4.
    output = "ok / refused 11 event 2 has no time / ok / refused 11 event 7 has no time / ok / cost 4"
    output += " / tensions 2 / 1 4 1 / 2 6 2"
    suite.case("an event whose time was ignored", words, given=asked, output=text_of(output))
    fixed = suite.file("fixed", b"1; 12\n")
    words = ["--period", "10", "--fixed", fixed, activities]
    output = "domains 2 / 1: 2 / 2: 6 7 / optimum 4 2 / 1 2 / 2 6 / refused 11 event 1 has no time"
    suite.case("a fixed time from a file", words, given=b"domains\noptimum\ncost\n", output=text_of(output))
    words = ["--fixed", fixed, "--times", times, activities]
    output = "# period 60 lines 5 / add event 1 / add event 2 / fix 1 12 / " + script_of_two()
    suite.case("all three files", words, given=b"dump\n", output=text_of(output))
    suite.case("no commands", words, given=b"")
    suite.case("activities from standard input, and no commands after them", ["/dev/stdin"], given=TWO_FILE)


GROUPS = [command_cases, model_cases, model_restores, refused_lines, faulty_lines, files_and_commands]
