"""Standard output that fails, standard input that cannot be read, a late reader, and too little memory."""

import os
import resource
import subprocess
import threading
import time
from typing import IO, Any, Callable, Dict, Optional, Tuple

from tests import rules
from tests.file_cases import FIELDS, TWO, TWO_TIMES
from tests.harness import (
    NAMES,
    NOT_READ,
    NOT_WRITTEN,
    SECONDS,
    SOME,
    Came,
    Suite,
    Words,
    patient,
    closed_pipe,
    record,
    rows_of,
    run,
    words_for,
)
from tests.limits import FULL_PERIOD, MOST_EVENTS
from tests.replies import EMPTY_REPLIES


def failing_output(suite: Suite) -> None:
    activities, times = suite.file("activities", TWO), suite.file("times", TWO_TIMES)
    checked = ["--check", "--period", "10", "--times", times, activities]
    table: Dict[str, Tuple[Words, Optional[bytes]]] = {
        "a check": (checked, None),
        "help": (["--help"], None),
        "the version": (["--version"], None),
        "a check of nothing": (["--check"], None),
        "one command": ([], b"cost\n"),
        "the stored run": ([], b"add event 2\nadd event 1\nadd activity 1 1 2 3 5 2\noptimum\n"),
        "a last line without a line feed": ([], b"# a comment\nadd"),
        "a reply before a faulty line": ([], b"dump\n" + b"x" * 5_000),
    }
    for name, (words, given) in table.items():
        wanted: Dict[str, Any] = {"status": 1, "error": NOT_WRITTEN, "given": given}
        with open("/dev/full", "wb") as full:
            suite.case(f"{name}: a full device", words, stdout=full, **wanted)
        writer = closed_pipe()
        suite.case(f"{name}: a pipe that nobody reads", words, stdout=writer, **wanted)
        os.close(writer)
        closed: Dict[str, Any] = {"stdout": None, "preexec_fn": lambda: os.close(1)}
        suite.case(f"{name}: standard output closed", words, **closed, **wanted)
    with open("/dev/full", "wb") as full:
        suite.case("a fault, standard error full", ["no such file"], status=1, cwd=suite.folder, stderr=full)
        how: Dict[str, Any] = {"cwd": suite.folder, "stdout": full}
        suite.case("nothing written after a fault", ["no such file"], status=1, error=SOME, **how)
        # Nothing is written if no line has a reply, so nothing fails.
        suite.case("lines without a reply: a full device", [], stdout=full, given=b"\n# a comment\n \t\r\n")


def closing_reader(suite: Suite) -> None:
    """A reader that reads the first replies and ends."""
    for number in range(20):
        began = subprocess.Popen([suite.program], stdin=subprocess.PIPE, stdout=subprocess.PIPE, stderr=subprocess.PIPE)
        assert began.stdin is not None and began.stdout is not None and began.stderr is not None
        began.stdin.write(b"add event 1\n")
        began.stdin.flush()
        first = began.stdout.readline()
        began.stdout.close()
        try:
            began.stdin.write(b"dump\n" * 20_000)
            began.stdin.close()
        except BrokenPipeError:
            pass
        came = {"first": first, "status": began.wait(patient(SECONDS)), "standard error": began.stderr.read()}
        began.stderr.close()
        wanted = {"first": b"ok\n", "status": 1, "standard error": NOT_WRITTEN}
        suite.note(f"a reader that goes after the first reply, number {number}", wanted, came)


def failing_input(suite: Suite) -> None:
    folder = os.open(suite.folder, os.O_RDONLY)
    activities = suite.file("activities", TWO)
    asked: Dict[str, Words] = {"no files": [], "activities": ["--period", "10", activities]}
    for name, words in asked.items():
        wanted: Dict[str, Any] = {"status": 1, "error": NOT_READ}
        suite.case(f"{name}: standard input is a folder", words, stdin=folder, **wanted)
        closed: Dict[str, Any] = {"stdin": None, "preexec_fn": lambda: os.close(0)}
        suite.case(f"{name}: standard input closed", words, **closed, **wanted)
        with open("/dev/null", "wb") as only_written:
            suite.case(f"{name}: standard input is open to write alone", words, stdin=only_written, **wanted)
    faulty = suite.file("faulty", b"0")
    wanted = {"status": 1, "error": record("activities", 1, FIELDS)}
    suite.case("a faulty file before standard input", [faulty], stdin=folder, **wanted)
    suite.case("a faulty file before the first reply", [faulty], given=b"cost\n", **wanted)
    suite.case("a check reads no standard input", ["--check"], stdin=folder, output=EMPTY_REPLIES)
    os.close(folder)


def slow_reader(suite: Suite) -> None:
    rows = [(number, 1, 2, 0, 9, 1) for number in range(50_000)]
    times, activities = suite.file("times", TWO_TIMES), suite.file("activities", rows_of(rows))
    words = ["--check", "--period", "10", "--times", str(times), str(activities)]
    begun = subprocess.Popen([str(suite.program), *words], stdin=subprocess.DEVNULL, stdout=subprocess.PIPE)
    assert begun.stdout is not None
    time.sleep(0.5)
    output = begun.stdout.read()
    status = begun.wait(patient(SECONDS))
    begun.stdout.close()
    wanted = {"status": 0, "standard output": rules.replies(10, rows, {}, {1: 0, 2: 3})}
    suite.note("a reader that comes late", wanted, {"status": status, "standard output": output})


def late_reader(suite: Suite) -> None:
    """Replies of many megabytes that wait for their reader, while commands wait to be read."""
    words = [str(suite.program), "--period", "10", str(suite.file("activities", TWO))]
    began = subprocess.Popen(words, stdin=subprocess.PIPE, stdout=subprocess.PIPE)
    assert began.stdin is not None and began.stdout is not None
    writer = threading.Thread(target=write_whole, args=(began.stdin, b"dump\n" * 50_000), daemon=True)
    writer.start()
    time.sleep(0.5)
    output = began.stdout.read()
    script = b"# period 10 lines 4\nadd event 1\nadd event 2\nadd activity 1 1 2 3 5 2\nadd activity 2 2 1 4 6 1\n"
    came = {"status": began.wait(patient(SECONDS)), "standard output": output}
    began.stdout.close()
    suite.note("replies wait for their reader", {"status": 0, "standard output": script * 50_000}, came)


def write_whole(stream: IO[bytes], data: bytes) -> None:
    """Writes all, and closes its output."""
    stream.write(data)
    stream.close()


def narrow(megabytes: int) -> Callable[[], None]:
    """The limit that leaves a program this much memory, including its own code."""
    return lambda: resource.setrlimit(resource.RLIMIT_AS, (megabytes << 20, megabytes << 20))


def want_of_memory(suite: Suite) -> None:
    size = 48 << 20
    spaces = b" " * size
    path = suite.file("large", spaces)
    wanted: Dict[str, Any] = {"status": 1, "error": b"pespbench: out of memory at line 0\n", "preexec_fn": narrow(32)}
    for name in NAMES:
        suite.check(f"{name}: no memory for the file", words_for(name, path), **wanted)
    suite.check("activities: no memory for a pipe", ["/dev/stdin"], given=spaces, **wanted)
    # There is memory for the file, but not for a record of its length.
    for name in NAMES:
        wanted = {"status": 1, "error": record(name, 1, "out of memory"), "preexec_fn": narrow(88)}
        suite.check(f"{name}: no memory for a record", words_for(name, path), **wanted)
    path.write_bytes(b"# a\n\n# b\n" + spaces)
    wanted = {"status": 1, "error": record("activities", 3, "out of memory"), "preexec_fn": narrow(88)}
    suite.check("activities: no memory for the third record", [path], **wanted)
    path.unlink()


def memory_of_commands(suite: Suite) -> None:
    """Finds the least memory that is enough for three commands; with slightly less, the greatest reply is refused."""
    loops = rows_of((event, event, event, 0, FULL_PERIOD - 1, 0) for event in range(MOST_EVENTS))
    words = [suite.program, "--period", str(FULL_PERIOD), suite.file("loops", loops)]
    given = b"cost\n# a comment\ndomains\ncost\n"
    enough, least = 2_048, 32

    def come(quarters: int) -> Came:
        return run(words, given=given, preexec_fn=lambda: resource.setrlimit(resource.RLIMIT_AS, (quarters << 18,) * 2))

    while enough - least > 1:
        middle = (enough + least) // 2
        enough, least = (middle, least) if come(middle)["status"] == 0 else (enough, middle)
    no_time = b"refused 11 event 0 has no time\n"
    wanted = {"status": 1, "standard output": no_time, "standard error": b"pespbench: out of memory at line 3\n"}
    suite.note(f"no memory for a reply, with {least} quarters of a megabyte", wanted, come(least))
    output = come(enough + 4)["standard output"]
    suite.holds("the replies with a megabyte more", output.startswith(no_time + f"domains {MOST_EVENTS}\n0: 0 1 2".encode()))
    suite.holds("the last of them", output.endswith(no_time))


GROUPS = [failing_output, closing_reader, failing_input, slow_reader, late_reader, want_of_memory, memory_of_commands]
