"""Cases for `rt try --cases`, which builds the program once: their files, and their results."""

import random
import re
from pathlib import Path
from typing import Dict, List, Mapping, Sequence, Tuple

from tests.command_cases import CASES
from tests.commands import text_of
from tests.file_cases import ACTIVITY_FAULTS, ACTIVITY_FORMS, TWO_TIMES
from tests.harness import record, run
from tests.module_program import MODULE
from tests.replies import TWO_REPLIES
from tests.streams import drawn_lines

STREAMS, LINES = 40, 50
# The toolchain's message on a case on standard error: the program's own fault, unless output is compared, and its status.
ENDED = re.compile(r"^(pespbench: .*\n)?case=(\S+) run=ended status=(\d+)(.*)$", re.M)
# Its standard output is that of such cases, each after its name.
NAMED = re.compile(r"^== (\S+)\n", re.M)
COMPARED = "output=expected"
# An exit status, and the output, or COMPARED.
Outcome = Tuple[int, str]


class Folder:
    """The folder of the cases, files beside it that they name, and the expected results."""

    def __init__(self, top: Path) -> None:
        self.top = top
        self.wanted: Dict[str, Outcome] = {}
        self.data: List[str] = []
        (top / "cases").mkdir()

    def beside(self, name: str, content: bytes) -> str:
        path = self.top / name
        path.write_bytes(content)
        self.data += ["--data", f"{name}={path}"]
        return name

    def case(self, name: str, words: Sequence[str], given: bytes, output: bytes, status: int = 0, error: bytes = b"") -> None:
        cases = self.top / "cases"
        (cases / name).write_bytes(given)
        (cases / f"{name}.args").write_text("".join(f"{word}\n" for word in words))
        # Standard error is reported only if output is not compared.
        if not error:
            (cases / f"{name}.stdout").write_bytes(output)
        self.wanted[name] = (status, (output + error).decode() if error else COMPARED)


def write_rows(folder: Folder) -> None:
    times = folder.beside("times", TWO_TIMES)
    for number, text in enumerate(ACTIVITY_FORMS.values()):
        folder.case(f"form{number}", ["--check", "--period", "10", "--times", times, "{}"], text, TWO_REPLIES)
    for number, (text, place, kind) in enumerate(ACTIVITY_FAULTS.values()):
        folder.case(f"fault{number}", ["--check", "{}"], text, b"", 1, record("activities", place, kind))


def write_commands(folder: Folder) -> None:
    for number, (_, period, rows, lines, replies) in enumerate(CASES):
        activities = folder.beside(f"activities{number}", text_of(rows))
        folder.case(f"table{number}", ["--period", str(period), activities], text_of(lines), text_of(replies))


def write_streams(folder: Folder) -> None:
    """Random streams, with the module's replies."""
    draw = random.Random(5_603)
    for number in range(STREAMS):
        words = ["--period", str(draw.randint(2, 12))]
        lines = b"\n".join(drawn_lines(draw, int(words[1]), LINES))
        folder.case(f"stream{number}", words, lines, run([MODULE, *words], given=lines)["standard output"])


def write_cases(top: Path) -> Tuple[Dict[str, Outcome], List[str]]:
    """The expected result of each case, and the words that name the files beside the cases."""
    folder = Folder(top)
    write_rows(folder)
    write_commands(folder)
    write_streams(folder)
    return folder.wanted, folder.data


def outcomes(output: str, errors: str) -> Dict[str, Outcome]:
    """The status of each case that ended, with its output, or with COMPARED."""
    parts, came = NAMED.split(output), {}
    printed = dict(zip(parts[1::2], parts[2::2]))
    for fault, name, status, rest in ENDED.findall(errors):
        came[name] = int(status), COMPARED if COMPARED in rest.split() else printed.get(name, "") + fault
    return came


def told(output: str, errors: str, wanted: Mapping[str, Outcome]) -> List[str]:
    """The faults in the toolchain's output on the cases: a line for each with another result, or that did not run."""
    came, wrong = outcomes(output, errors), []
    for name, what in wanted.items():
        if came.get(name) != what:
            wrong.append(f"FAILED case {name}: wanted {what}, came {came.get(name, 'no end')}")
    return wrong
