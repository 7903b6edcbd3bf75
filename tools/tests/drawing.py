"""The scripts of examples/ that read replies: session.py, search.py, draw.py and read_replies.py."""

import os
import random
import sys
from typing import List
from xml.etree import ElementTree

from tests.examples import folders, words_of
from tests.harness import SOME, TOP, Suite, run

PYTHON = [sys.executable, "-B"]
DRAW = [*PYTHON, TOP / "examples/draw.py"]
PACKAGE = {**os.environ, "PYTHONPATH": str(TOP / "python")}
SHORTEST = """changes of 4 to 8 minutes: infeasible
changes of 4 to 9 minutes: cost 349, times {1: 3, 2: 27, 3: 29, 4: 0, 5: 36, 6: 54, 7: 2, 8: 20}
"""
BEST = b"180 180 0.0\n{1: 0, 2: 24, 3: 26, 4: 57, 5: 30, 6: 47, 7: 5, 8: 22}\n"
QUESTIONS = """
import sys
from pespbench import Bench, PespbenchError
text = "try 0/optimum/fix 1 0/domains/domain 2/drop activity 1/drop activity 2/dump/cost/time 2 12/cots//# x/adopt/cost"
with Bench.open("examples/two-trains/activities", period=10, program=sys.argv[1]) as bench:
    for command in text.split("/"):
        try:
            print(bench.ask(command))
        except (PespbenchError, ValueError) as why:
            print(type(why).__name__, why)
"""
ANSWERS = """Stopped(cost=None, times={}, lower_bound=None)
Optimum(cost=4, times={1: 0, 2: 4})
None
{1: Domain(event=1, residues=(0,)), 2: Domain(event=2, residues=(4, 5))}
Domain(event=2, residues=(4, 5))
None
None
# period 10 lines 3
add event 1
add event 2
fix 1 0

Refused refused 11 event 1 has no time
Refused refused 4 time 12 is out of range
Fault fault unknown command
ValueError one command a line; blank lines and comments have no reply
ValueError one command a line; blank lines and comments have no reply
Optimum(cost=0, times={1: 0, 2: 0})
0
"""


def session_script(suite: Suite) -> None:
    script = TOP / "examples/session.py"
    came = run([*PYTHON, script, suite.program], cwd=TOP, env=PACKAGE)
    lines = came["standard output"].decode().splitlines()
    ends = "".join(f"{line.rstrip()}\n" for line in lines[-2:])
    wanted = {"status": 0, "standard error": b"", "last lines": SHORTEST, "lines": 6}
    suite.note("the story of session.py", wanted, {**came, "last lines": ends, "lines": len(lines)})
    suite.holds("session.py has at most 60 lines", len(script.read_text().splitlines()) <= 60)
    came = run([*PYTHON, "-c", QUESTIONS, suite.program], cwd=TOP, env=PACKAGE)
    text = came["standard output"].decode()
    suite.note("replies as the package gives them", {"status": 0, "text": ANSWERS}, {**came, "text": text})


def search_script(suite: Suite) -> None:
    """The search ends with the optimum, as `optimum` returns it."""
    came = run([*PYTHON, TOP / "examples/search.py", suite.program], cwd=TOP, env=PACKAGE)
    ends = b"".join(came["standard output"].splitlines(keepends=True)[-2:])
    suite.note("what search.py tells", {"status": 0, "standard error": b"", "last lines": BEST}, {**came, "last lines": ends})


def pictures(suite: Suite) -> None:
    """The pictures in the repository are those of the examples, byte for byte."""
    drawn = [folder for folder in folders() if (folder / "picture.svg").exists()]
    suite.holds("there is a picture", drawn)
    for folder in drawn:
        words = words_of(folder)
        times = words[words.index("--times") + 1 :][:1] if "--times" in words else []
        given = (folder / "expected").read_bytes()
        picture = (folder / "picture.svg").read_bytes()
        name = f"the picture of examples/{folder.name}"
        came = run([*DRAW, *times], given=given, cwd=folder, env=PACKAGE)
        suite.note(name, {"status": 0, "standard output": picture, "standard error": b""}, came)
        suite.note(f"{name} stands alone", {"outside": []}, {"outside": outside(picture)})


def outside(picture: bytes) -> List[str]:
    """References of a page to anything outside itself: it may contain only shapes and words."""
    allowed = {"svg", "rect", "text", "circle", "path"}
    elements = ElementTree.fromstring(picture).iter()
    return sorted({element.tag.removeprefix("{http://www.w3.org/2000/svg}") for element in elements} - allowed)


def hostile_words(draw: random.Random) -> str:
    words = ["#", "period", "lines", "domains", "tensions", "violations", "cost", "optimum", "stopped", "none", "ok"]
    words += ["add", "event", "activity", "fix", "window", "refused", "<script>", '"/>', "&amp;", "nan", "inf", "1e9", "1_0"]
    numbers = [0, 1, 2, 3, 10, 60, 120, 121, -1, 10**9, -(10**9), 2**64, 10**400]
    count = draw.randrange(1, 9)
    return " ".join(draw.choice(words) if draw.randrange(3) == 0 else str(draw.choice(numbers)) for _ in range(count))


def hostile_replies(draw: random.Random) -> str:
    """Replies with a few words exchanged, or lines of words from replies."""
    text = (TOP / "examples/hourly-line-asked/expected").read_text()
    lines = text.splitlines()
    for _ in range(draw.randrange(1, 4)):
        place = draw.randrange(len(lines))
        words = lines[place].split()
        words[draw.randrange(len(words))] = hostile_words(draw).split()[0]
        lines[place] = draw.choice([" ".join(words), hostile_words(draw), lines[draw.randrange(len(lines))]])
    return "\n".join(lines)


def hostile_pages(suite: Suite) -> None:
    draw = random.Random(1804)
    big = ["# period 120 lines 2", "add event 1", f"fix 1 {10**15}"]
    texts = ["", "ok", "# period 60 lines 0", "# period 1 lines 0", "# period x lines 0", "domains 9999999999"]
    texts += ["\n".join(big)]
    texts += [hostile_replies(draw) for _ in range(60)]
    for number, text in enumerate(texts):
        came = run([*DRAW], given=text.encode(), env=PACKAGE)
        drawn, told = came["standard output"], came["standard error"]
        if came["status"] == 0:
            suite.note(f"hostile replies {number}", {"outside": []}, {"outside": outside(drawn)})
            suite.holds(f"hostile replies {number}: a page of a fair size", len(drawn) < 100_000)
        else:
            suite.note(f"hostile replies {number}: {text[:80]!r}", {"status": 1, "standard output": b""}, came)
            last = told.strip().splitlines()[-1]
            suite.holds(f"hostile replies {number} are told by a text", last.startswith(b"draw.py: "))


def windows(suite: Suite) -> None:
    """A window is a frame over its times, in two parts if it wraps around the period, and has a note."""
    lines = ["# period 10 lines 4", "add event 1", "add event 2", "window 1 8 4", "window 2 3 10"]
    came = run([*DRAW], given="\n".join(lines).encode(), env=PACKAGE)
    page = ElementTree.fromstring(came["standard output"])
    frames = [element for element in page.iter() if element.get("stroke") == "#d98200" and element.tag.endswith("rect")]
    widths = [round(float(frame.attrib["width"])) for frame in frames]
    suite.note("frames of windows", {"widths": [120, 120, 600]}, {"widths": widths})
    notes = [element.text for element in page.iter() if element.tag.endswith("text") and (element.text or "").startswith("within ")]
    suite.note("notes of windows", {"notes": ["within 8 to 1", "within all times"]}, {"notes": [note for note in notes if note != "within the span"]})


def many_events(suite: Suite) -> None:
    """A page of 40 events and 60 activities with the longest numbers: each row has its own line, within the page."""
    rows = [(900_000_000 + number, 999_999_000 + number % 40, 999_999_000 + number * 7 % 40) for number in range(60)]
    lines = ["# period 120 lines 100", *(f"add event {999_999_000 + number}" for number in range(40))]
    lines += [f"add activity {row[0]} {row[1]} {row[2]} -1000000 1000000 1000000000" for row in rows]
    lines += ["domains 40", *(f"{999_999_000 + number}: 0 1 119" for number in range(40))]
    lines += ["tensions 60", *(f"{row[0]} -999881 119" for row in rows)]
    lines += ["violations 60", *(f"activity {row[0]}" for row in rows)]
    came = run([*DRAW], given="\n".join(lines).encode(), env=PACKAGE)
    page = ElementTree.fromstring(came["standard output"])
    texts = [element for element in page.iter() if element.tag.endswith("text")]
    labels = [text for text in texts if text.get("text-anchor") == "end"]
    suite.note("each row has a label", {"labels": 100}, {"labels": len(labels)})
    apart = {float(text.attrib["y"]) for text in labels}
    suite.note("each label has its own line", {"places": 100}, {"places": len(apart)})
    left = min(float(text.attrib["x"]) - 8 * len(text.text or "") for text in labels)
    right = max(float(text.attrib["x"]) + 8 * len(text.text or "") for text in texts if text.get("text-anchor") == "start")
    suite.holds("labels and notes lie within the page", left >= 0 and right <= float(page.attrib["width"]))


def read_replies(suite: Suite) -> None:
    script = TOP / "examples/read_replies.py"
    fine = b"tensions 1\n1 3 0\nviolations 0\ncost 0\n"
    table = {
        "nothing violated": (fine, 0, b"0 violated, cost 0\n", b""),
        "a violation": (fine.replace(b"violations 0", b"violations 1\nactivity 1"), 1, b"1 violated, cost 0\n", b""),
        "a missing time": (b"refused 11 event 2 has no time\n" * 3, 1, b"", b"refused 11 event 2 has no time\n"),
        "no replies": (b"", 1, b"", SOME),
    }
    for name, (given, status, output, error) in table.items():
        came = run([*PYTHON, script], given=given, env=PACKAGE)
        wanted = {"status": status, "standard output": output, "standard error": error}
        suite.note(f"read_replies.py: {name}", wanted, came)


GROUPS = [session_script, search_script, pictures, hostile_pages, windows, many_events, read_replies]
