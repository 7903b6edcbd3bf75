"""Two variants: kept, compared, exchanged, and one of them taken over."""

import json
import os
import pathlib
import re
import shutil
import subprocess
import sys
import tempfile
from pathlib import Path
from typing import Any, Dict

from page_tests.hands import TWO_TRAINS, Hands
from page_tests.keys import CTRL, SHIFT
from tests.harness import TOP, Suite

BOTH = "[...document.querySelectorAll('#view-compare .beside th b')].map(each => each.textContent).join()"
LISTED = """[...document.querySelectorAll('#view-compare ul li')].map(each => each.textContent)"""
FIGURES = """Object.fromEntries([...document.querySelectorAll('#view-compare .beside tbody tr')].map(row =>
    [row.firstChild.textContent, [...row.querySelectorAll('td')].map(each => each.textContent)]))"""
STATE = "JSON.stringify([[...Page.view.network.activities.values()], [...Page.view.network.windows], [...Page.view.times]])"


def keep(page: Hands, name: str) -> None:
    page.key(name, ord(name), SHIFT)
    page.frame()


def kept(suite: Suite, page: Hands) -> None:
    """The present state is kept by a button or a key as A and as B; the other is the present state until it is kept too."""
    page.again()
    page.press("tab-compare")
    suite.holds("nothing is kept", "Keep what is shown as A" in page.text("#compared-told") and not page.is_shown("take-A"))
    page.press("keep-A")
    suite.note("A beside what is shown", {"both": "A,what is shown"}, {"both": page.ask(BOTH)})
    page.ask("Page.showBar(21)")
    page.key("ArrowRight", 39)
    moved = [each for each in page.ask(LISTED) if "(+1 minute)" in each]
    suite.note("a train moved", {"times": 10}, {"times": len(moved)})
    keep(page, "B")
    suite.note("both", {"both": "A,B", "focus": "tab-compare"}, {"both": page.ask(BOTH), "focus": page.ask("document.activeElement.id")})
    page.ask("Page.undo()")
    page.frame()
    suite.note("what is shown is neither hand's", {"moved": moved}, {"moved": [each for each in page.ask(LISTED) if "(+1" in each]})
    page.ask("document.querySelector('#view-compare li button').click()")
    suite.note("a change leads to its event", {"chosen": "21"}, {"chosen": page.ask("document.activeElement.dataset.event")})
    page.press("forget-B")
    suite.note("B is forgotten", {"both": "A,what is shown"}, {"both": page.ask(BOTH)})


def in_fields(suite: Suite, page: Hands) -> None:
    """The letters that keep a variant are letters in a field."""
    page.again()
    page.click(*page.middle("#finder input"))
    page.type("AB")
    suite.note("typed", {"text": "AB", "kept": ""}, {"text": page.ask("document.querySelector('#finder input').value"), "kept": page.ask(BOTH)})


def taken(suite: Suite, page: Hands) -> None:
    """One of them is taken over in one step, which undo reverts; an exchange only swaps the names."""
    page.again()
    page.show(TWO_TRAINS)
    keep(page, "A")
    first = page.ask(STATE)
    lines = ["span 1 3 4", "weight 2 7", "fix 1 2", "add event 9", "add activity 4 2 9 1 2 3", "time 1 2", "time 9 5", "drop activity 2"]
    page.ask(f"Page.step({json.dumps(lines)}, {{ labels: {{ ...Page.labels, kinds: new Map([[4, 'change']]) }} }})")
    second = page.ask(STATE)
    keep(page, "B")
    suite.holds("what is shown is not taken", page.ask("Page.find('take-B').disabled && !Page.find('take-A').disabled"))
    page.press("take-A")
    suite.note("A again", {"state": first, "steps": 2, "kinds": 1}, {"state": page.ask(STATE), "steps": page.ask("Page.session.place"), "kinds": page.ask("Page.labels.kinds.size")})
    page.key("z", 90, CTRL)
    suite.note("undone", {"state": second, "kinds": "change"}, {"state": page.ask(STATE), "kinds": page.ask("Page.labels.kinds.get(4)")})
    page.press("swap")
    page.press("take-B")
    suite.note("A is B now", {"state": first}, {"state": page.ask(STATE)})
    page.press("take-A")
    suite.note("and B is A", {"state": second}, {"state": page.ask(STATE)})
    suite.note("every step is there", {"steps": ["B is taken over", "A is taken over"]}, {"steps": page.ask("Page.session.steps.slice(-2).map(Page.titleOf)")})


def of_others(suite: Suite, page: Hands) -> None:
    """A stays when something else is opened, also of another period, which is compared and not taken over."""
    page.show(TWO_TRAINS, "a pair")
    keep(page, "A")
    page.ask("Page.openStory(Page.stories[0])")
    page.press("keep-B")
    heads = page.ask("[...document.querySelectorAll('#view-compare .beside th small')].map(each => each.textContent)")
    suite.note("titles", {"heads": ["a pair", page.ask("Page.stories[0].title")]}, {"heads": heads})
    listed = page.ask(LISTED)
    suite.holds("the period", "period 60, was 10" in listed and any("added" in each for each in listed))
    before = page.ask(STATE)
    page.press("take-A")
    suite.note("not taken", {"state": before}, {"state": page.ask(STATE)})
    suite.note("with a word", {"said": "A repeats after 10 minutes, and what is open after 1:00 h: open its files."}, {"said": page.said().replace("60 minutes", "1:00 h")})
    suite.holds("drawn each by itself", page.ask("document.querySelectorAll('#view-compare .line > svg').length") >= 1)


# Lines that change a region of 112 events in every way that is compared.
CHANGES = ["span 1 9 22", "weight 3 77", "fix 2 5", "window 30 50 15", "drop activity 100", "add event 300", "add activity 300 4 300 3 9 5",
           "time 300 12", "time 7 1", "ends 90 5 8"]  # fmt: skip


def said(page: Hands) -> Any:
    """The page's text in the form of the package's command."""
    return page.ask("""(() => {
        const [before, after] = [window.first, Page.view], { network, times } = Page.differences(before, after), costs = Page.costsBeside(before, after);
        return { network: network.map(each => each.text), times: times.map(each => each.text), costs: costs && costs.map(row => row.map(String)) };
    })()""")


def by_package(page: Hands, folder: Path) -> Dict[str, Any]:
    """The output of the package's `compare` on the files of both."""
    for name, view in (("before", "window.first"), ("after", "Page.view")):
        files = page.ask(f"Page.within({view}, () => Page.filesOf({view}.network, {view}.times))")
        (folder / name).mkdir()
        for file, text in files.items():
            (folder / name / file).write_text(text)
    more = {"PESPBENCH": str(TOP / "tools/pespbench_module"), "PYTHONPATH": str(TOP / "python"), "PYTHONDONTWRITEBYTECODE": "1"}
    words = [sys.executable, "-m", "pespbench", "compare", str(folder / "before"), str(folder / "after")]
    text = subprocess.run(words, env={**os.environ, **more}, capture_output=True, text=True, check=True).stdout
    parts = dict(re.findall(r"^(\w[\w ]*)\n((?:  .*\n)+)", text, re.M))
    rows = {name: [row.strip() for row in part.splitlines() if row.strip() != "no change"] for name, part in parts.items()}
    costs = [re.split(r"  +", row.replace(",", "")) for row in rows["Cost by kind"][1:]]
    return {
        "network": [row.replace("-", "−") for row in rows["Network"]],
        "times": [re.sub(r"(\(| by )-", r"\1−", row) for row in rows["Times"]],
        "costs": [row[:3] for row in costs] if costs else None,
    }


def as_package(suite: Suite, page: Hands) -> None:
    """The differences are those of the Python package's `compare`."""
    if not shutil.which("node"):
        return
    for title, lines in [("nothing", []), ("all", CHANGES), ("a time is missing", ["untime 3"]), ("all moved", None)]:
        page.again()
        page.ask("(window.first = Page.view, 0)")
        if lines is None:
            page.ask("Page.step([...Page.timesNow()].map(([event, time]) => `time ${event} ${(time + 56) % 60}`))")
        elif lines:
            page.ask(f"Page.step({json.dumps(lines)})")
        with tempfile.TemporaryDirectory() as name:
            suite.note(title, by_package(page, pathlib.Path(name)), said(page))


def drawn_beside(suite: Suite, page: Hands) -> None:
    """The chosen line of both is in one drawing and one table, with the minutes of connections in each."""
    page.again()
    keep(page, "A")
    page.ask("Page.choose(21)")
    page.ask("Page.moveTrain(21, 3, false)")
    keep(page, "B")
    line = "document.querySelector('#view-compare .line')"
    ways = page.ask(f"[...{line}.querySelectorAll('path[stroke-linejoin]:not(.broken)')].map(each => Boolean(each.getAttribute('stroke-dasharray')))")
    suite.holds("both are drawn", ways.count(True) > 0 and ways.count(False) == ways.count(True))
    suite.note("the broken turn", {"text": "B: 24 not 9–22 turnaround"}, {"text": page.ask(f"{line}.querySelector('text.broken').firstChild.textContent + {line}.querySelector('text.broken').childNodes[1].textContent")})
    moved = page.ask(f"[...{line}.querySelectorAll('td.moved')].map(each => each.textContent)")
    suite.note("ten minutes moved", {"count": 10, "first": "29 32"}, {"count": len(moved), "first": moved[0]})
    rows = page.ask("[...document.querySelectorAll('#view-compare div > table:not(.beside, .line *) tbody tr')].map(row => [...row.children].slice(3).map(each => each.textContent))")
    suite.holds("connections that take other times", len(rows) > 0 and all(int(row[1].split()[0]) - int(row[0].split()[0]) == int(row[2].replace("−", "-")) for row in rows))
    suite.holds("and those that do not are counted", re.search(r"\d+ take the same in both\.", page.text("#compared-told")) is not None)
    figures = page.ask(FIGURES)
    suite.note("costs and violations", {"violated": ["0", "1", "+1"], "sum": ["18,504", "18,528", "+24"]}, {"violated": figures["violated"], "sum": figures["cost in all"]})


GROUPS = [kept, in_fields, taken, of_others, as_package, drawn_beside]
