"""Help, the version, and the words of the command line."""

from typing import Any, Dict, List

from tests.file_cases import TWO, TWO_FIXED, TWO_TIMES
from tests.harness import SOME, VERSION, Suite, Words, run, unreadable
from tests.limits import GREATEST_PERIOD, LEAST_PERIOD
from tests.replies import EMPTY_REPLIES, FIXED_REPLIES, TWO_REPLIES


def help_text(suite: Suite) -> None:
    for word in ["--help", "-h"]:
        suite.case(f"help by {word}", [word], output=SOME)
    came = run([suite.program, "--help"])["standard output"].decode()
    for option in ["--period", "--fixed", "--times", "--check", "ACTIVITIES", f"{LEAST_PERIOD} to {GREATEST_PERIOD}", "default: 60"]:
        suite.note(f"help names {option}", {"found": True}, {"found": option in came})
    # The parts of help: an example, the columns, the exit statuses, and the documents.
    columns = ["from; to; lower; upper; weight", "event; time"]
    for word in ["commands", *columns, "exit status", "docs/formats.md", "examples"]:
        suite.holds(f"help tells of {word}", word in came.lower())
    suite.case("help before a missing file", ["--help", "no such file"], output=SOME)


def version_text(suite: Suite) -> None:
    told = f"pespbench {VERSION}\n".encode()
    forms: List[Words] = [["--version"], ["-V"], ["-Vh"], ["--check", "-V"], ["--version", "--wrong"], ["-V", "no such file"]]
    for words in forms:
        suite.case(f"version by {words}", words, output=told)
    suite.case("help before the version", ["--help", "--version"], output=SOME)


def refused_arguments(suite: Suite) -> None:
    table: Dict[str, Words] = {
        "an unknown option": ["--wrong"],
        "a value of --version": ["--version=1"],
        "--version beside a word that is not UTF-8": ["--version", b"\xff"],
        "two files": ["a", "b"],
        "--check twice": ["--check", "--check"],
        "--period twice": ["--period", "10", "--period", "10"],
        "--fixed twice": ["--fixed", "a", "--fixed", "a"],
        "--fixed twice, once with an equals sign": ["--fixed", "a", "--fixed=b"],
        "--times twice": ["--times", "a", "--times", "a"],
        "--period 0": ["--period", "0"],
        "--period 1": ["--period", "1"],
        "--period above the greatest": ["--period", str(GREATEST_PERIOD + 1)],
        "--period 65536": ["--period", "65536"],
        "--period -5": ["--period", "-5"],
        "--period x": ["--period", "x"],
        "--period with an empty word": ["--period", ""],
        "--period without a value": ["--period"],
        "--fixed without a value": ["--fixed"],
        "--fixed before another option": ["--fixed", "--check"],
        "--fixed before two dashes": ["--fixed", "--", "a"],
        "--times without a value": ["--times"],
        "a part of an option": ["--fix", "a"],
        "--check with a value": ["--check=yes"],
        "a file that is not UTF-8": [b"\xff"],
        "an option that is not UTF-8": [b"--\xc3\x28"],
        "fixed times that are not UTF-8": ["--fixed", b"\xed\xa0\x80"],
        "times that are not UTF-8": ["--times", b"caf\xe9"],
        "help beside a word that is not UTF-8": ["--help", b"\xff"],
        "an unknown option before a missing file": ["--wrong", "no such file"],
    }
    for name, words in table.items():
        suite.case(f"refused arguments: {name}", words, status=2, error=SOME, cwd=suite.folder)
    with open("/dev/full", "wb") as full:
        suite.case("refused arguments, standard error full", ["--wrong"], status=2, stderr=full)


def accepted_arguments(suite: Suite) -> None:
    activities = suite.file("activities", TWO)
    times = suite.file("times", TWO_TIMES)
    table: Dict[str, Words] = {
        "in this order": ["--period", "10", "--times", times, "--check", activities],
        "in another order": [activities, "--check", "--times", times, "--period", "10"],
        "with equals signs": ["--check", "--period=10", f"--times={times}", activities],
        "after two dashes": ["--check", "--period", "10", "--times", times, "--", activities],
    }
    for name, words in table.items():
        suite.case(f"accepted arguments: {name}", words, output=TWO_REPLIES)
    asked: Dict[str, Any] = {"given": b"tensions\nviolations\ncost\n", "output": TWO_REPLIES}
    suite.case("accepted arguments: no --check", ["--period", "10", "--times", times, activities], **asked)
    fixed = suite.file("fixed", TWO_FIXED)
    table = {
        "fixed times first": ["--fixed", fixed, "--period", "10", "--times", times, "--check", activities],
        "fixed times last": ["--check", activities, "--times", times, "--period", "10", "--fixed", fixed],
        "fixed times with an equals sign": ["--check", "--period=10", f"--fixed={fixed}", f"--times={times}", activities],
    }
    for name, words in table.items():
        suite.case(f"accepted arguments: {name}", words, output=FIXED_REPLIES)
    words = ["--period", "10", "--fixed", times, "--times", times, activities]
    suite.check("accepted arguments: one file for both times", words, output=TWO_REPLIES)
    suite.file("-a", TWO_TIMES)
    words = ["--period=10", "--fixed=-a", "--times=-a", activities]
    suite.check("accepted arguments: a name that begins with a dash", words, output=TWO_REPLIES, cwd=suite.folder)
    suite.check("the file named help", ["help"], status=1, error=unreadable("activities"), cwd=suite.folder)
    for period in [str(LEAST_PERIOD), str(GREATEST_PERIOD), "060", "+60"]:
        suite.check(f"--period {period}", ["--period", period], output=EMPTY_REPLIES)
    suite.case("--check alone", ["--check"], output=EMPTY_REPLIES)
    one = suite.file("one", b"1; 1; 2; 59; 59; 1\n")
    words = ["--times", suite.file("zeros", b"1; 0\n2; 0\n"), one]
    suite.check("period 60 where none is given", words, output=b"tensions 1\n1 60 1\nviolations 1\nactivity 1\ncost 1\n")


GROUPS = [help_text, version_text, refused_arguments, accepted_arguments]
