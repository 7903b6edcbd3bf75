"""The page as it opens, by real keys, clicks and existing files: what loses work, and what is typed."""

import pathlib
import tempfile
from typing import List, Mapping, Union

from page_tests.hands import TWO_TRAINS, Hands
from page_tests.keys import CODES, CTRL
from page_tests.searching import DONE, soon_found
from tests.harness import Suite

# A Worker that returns these answers to each search, one after another, the last of which ends it.
STAND_IN = """window.Worker = class {
    addEventListener(name, listener) { if (name === 'message') this.listener = listener; }
    postMessage({ id, kind }) {
        if (kind !== 'search') return;
        ANSWERS.forEach((found, place) => setTimeout(() => this.listener({ data: {
            id, nodes: 10 * (place + 1), isDone: place + 1 === ANSWERS.length,
            found: { ...found, times: new Map(found.times) },
        } }), 50 * place));
    }
    terminate() { }
}"""


def placed(folder: Union[str, pathlib.Path], texts: Mapping[str, str]) -> List[pathlib.Path]:
    """Existing files, with these texts by their names."""
    paths = []
    for name, text in texts.items():
        paths.append(pathlib.Path(folder) / name)
        paths[-1].write_text(text)
    return paths


def shortcuts(suite: Suite, page: Hands) -> None:
    """Undo, redo, open and save by their keys, on a page that nobody has touched."""
    page.again()
    page.key("s", 83, CTRL)
    page.frame()
    suite.holds("Ctrl and s", page.is_shown("saving"))
    page.press("saving-close")
    page.key("o", 79, CTRL)
    page.frame()
    suite.holds("Ctrl and o", page.is_shown("opening"))
    page.press("opening-close")
    page.again()
    page.drag([page.minute(1, 20), page.minute(1, 30)])
    for key, code, modifiers, lines in [
        ("z", 90, CTRL, []),
        ("y", 89, CTRL, ["fix 1 30"]),
        ("z", 90, CTRL, []),
        ("Z", 90, CTRL + 8, ["fix 1 30"]),
    ]:
        page.key(key, code, modifiers)
        page.frame()
        suite.note(f"{key} with {modifiers}", {"lines": lines}, {"lines": page.lines()})
    page.click(*page.middle("#large"))
    page.key("z", 90, CTRL)
    page.frame()
    suite.note("beside a box that is ticked", {"lines": []}, {"lines": page.lines()})
    page.click(*page.middle("#time-at"))
    page.key("s", 83, CTRL)
    page.frame()
    suite.holds("Ctrl and s in a field", page.is_shown("saving"))
    page.press("saving-close")
    page.click(*page.middle("#large"))


def typed(suite: Suite, page: Hands) -> None:
    """Typed minutes may be a clock time, and are no other number than that."""
    for period, field, text, line, said in [
        ("1440", "#time-at", "6:15", "time 1 375", "M to Benton leaves Ashford at 6:15"),
        ("1440", "#hold-first", "23:05", "window 1 1385 1", "M to Benton leaves Ashford: held at 23:05"),
        ("1440", "#hold-length", "1:30", "window 1 0 90", "M to Benton leaves Ashford: held from 0:00 to 1:29"),
        ("1440", '[data-activity="1"] [aria-label$="most minutes"]:not(.grip)', "1:05", "span 1 3 65", "run of M from Ashford to Benton: 0:03 to 1:05 h, was 3 to 5"),
        ("60", "#time-at", ":07", "time 1 7", "M to Benton leaves Ashford at :07"),
        ("60", "#time-at", "6:15", None, "M to Benton leaves Ashford: minute 375 is beyond the period"),
        ("60", "#time-at", "6.15", None, "M to Benton leaves Ashford: “6.15” is no whole number"),
        ("60", '[aria-label$="minute of slack"]', "6:15", None, "run of M from Ashford to Benton: “6:15” is no whole number"),
    ]:
        page.show({**TWO_TRAINS, "period": period})
        page.fill(field, f"{text}\n")
        wanted = {"lines": [line] if line else [], "said": said}
        suite.note(f"{text} in {field} at {period}", wanted, {"lines": page.lines(), "said": page.said()})
    page.show({**TWO_TRAINS, "period": "1440"})
    page.fill("#time-at", "6:15\n")
    page.click(*page.middle("#chosen-name"))
    suite.note("the same in the row", {"time": "6:15"}, {"time": page.row(1, "time")})
    page.again()
    page.fill("#nodes", "6:15\n")
    suite.note("a limit of a search", {"stop": False}, {"stop": page.is_shown("stop")})


def saved(suite: Suite, page: Hands) -> None:
    """A step is saved if each file that it changes was saved, or the archive; other files do not count."""
    for wanted, given in [(1, ["period"]), (1, ["labels"]), (0, ["fixed"]), (0, ["period", "fixed"]), (0, ["save-all"])]:
        page.again()
        page.drag([page.minute(1, 20), page.minute(1, 30)])
        page.press("save")
        for name in given:
            if name == "save-all":
                page.press(name)
            else:
                names = page.ask("[...document.querySelectorAll('#saving-files button')].map(each => each.textContent)")
                page.click(*page.middle(f"#saving-files li:nth-child({names.index(name) + 1}) button"))
        before = page.asked_to_stay
        page.again()
        suite.note(f"given: {', '.join(given)}", {"asked": wanted}, {"asked": page.asked_to_stay - before})


def replaced(suite: Suite, page: Hands) -> None:
    """Files that are dropped on unsaved work are opened only by a click, below a remark on what is lost."""
    with tempfile.TemporaryDirectory() as folder:
        paths = placed(folder, TWO_TRAINS)
        page.again()
        page.drop(*paths)
        came = {"said": page.said(), "open": page.opening()["open"], "size": page.text("#size")}
        opened, size = "opened: activities, times, period, labels", "2 events, 2 activities, period 10"
        wanted = {"said": opened, "open": False, "size": size}
        suite.note("files on a page that nobody has touched", wanted, came)
        page.again()
        page.drag([page.minute(1, 20), page.minute(1, 30)])
        page.drop(*paths)
        came = {"lines": page.lines(), "open": page.opening()["open"], "loss": page.is_shown("opening-loss")}
        suite.note("files on a step that is not saved", {"lines": ["fix 1 30"], "open": True, "loss": True}, came)
        page.press("opening-close")
        suite.note("which stays", {"lines": ["fix 1 30"]}, {"lines": page.lines()})
        page.drop(*paths)
        page.click(*page.middle("#opening-form .main"))
        page.until("Page.find('said').textContent.startsWith('opened')")
        suite.note("or is given up", {"size": size}, {"size": page.text("#size")})
        page.drop(*paths)
        suite.note("and nothing is lost then", {"open": False}, {"open": page.opening()["open"]})
        whole = pathlib.Path(folder) / "whole"
        whole.mkdir()
        placed(whole, TWO_TRAINS)
        page.again()
        page.drop(whole)
        page.until("Page.find('said').textContent.startsWith('opened')")
        suite.note("a folder", {"title": "whole"}, {"title": page.text("#title")})


def frames(suite: Suite, page: Hands) -> None:
    """Both ends of a frame can be dragged if the diamond is in it, and the diamond too."""
    page.again()
    time = page.ask("Page.view.times.get(1)")
    unit = page.minute(1, 1)[0] - page.minute(1, 0)[0]
    for grip, minutes, line in [
        ("last", 5, f"window 1 {time} 6"),
        ("first", -3, f"window 1 {time - 3} 9"),
        ("now", 2, f"time 1 {time + 2}"),
    ]:
        if not page.lines():
            page.click(*page.minute(1, 30))
            page.key("ArrowRight", CODES["ArrowRight"])
            suite.note("held where it is", {"lines": [f"fix 1 {time}"]}, {"lines": page.lines()})
        x, y = page.grip(1, grip)
        met = page.ask(f"document.elementFromPoint({x}, {y}).dataset.grip || ''")
        page.drag([(x, y), (x + minutes * unit / 2, y), (x + minutes * unit, y)])
        suite.note(f"the {grip} of a frame", {"met": grip, "line": line}, {"met": met, "line": page.lines()[-1]})


def edited(suite: Suite, page: Hands) -> None:
    """An edit during a search says what happens to its result, and its undo restores that."""
    page.again()
    page.show(soon_found())
    page.press("optimum")
    page.until("!Page.find('stop').hidden && /^Cost/.test(Page.find('found').textContent)")
    page.drag([page.minute(1, 20), page.minute(1, 30)])
    told = page.said()
    word = "event 1: held at :30 — the search has ended with it; the timetable of cost "
    suite.holds(f"a word on the search: {told}", told.startswith(word))
    came = {"adopt": page.is_shown("adopt"), "found": page.text("#found")}
    suite.note("nothing is offered", {"adopt": False, "found": ""}, came)
    page.key("z", 90, CTRL)
    page.frame()
    cost = told.split("cost ")[1].split(" ")[0]
    came = {"adopt": page.is_shown("adopt"), "found": page.text("#found").startswith(f"Cost {cost}, ")}
    suite.note("undone", {"adopt": True, "found": True}, came)
    page.press("adopt")
    suite.note("and adopted", {"cost": cost}, {"cost": page.text("#figure-cost b")})


def compared(suite: Suite, page: Hands) -> None:
    """Of several answers the best is kept, and one that is worse than the timetable shown is offered with that remark."""
    page.again()
    page.show({**TWO_TRAINS, "times": ""})
    better, worse = ["{ kind: 'stopped', cost: %d, times: [[1, 0], [2, %d]] }" % each for each in [(4, 4), (5, 5)]]
    page.ask(STAND_IN.replace("ANSWERS", f"[{better}, {worse}]"))
    page.press("optimum")
    page.until(DONE)
    told, took = page.text("#found"), page.text("#clock")
    suite.holds(f"the best of two: {told}, {took}", told == "Cost 4, perhaps not the best" and took.startswith("after 20 attempts, "))
    page.press("optimum")
    page.ask(STAND_IN.replace("ANSWERS", f"[{worse}]"))
    page.until(DONE)
    suite.holds("and of two searches", page.text("#found").startswith("Cost 4, "))
    page.press("adopt")
    suite.note("adopted", {"lines": ["time 1 0", "time 2 4"]}, {"lines": page.lines()})
    page.again()
    page.show({**TWO_TRAINS, "times": "1; 0\n2; 4\n"})
    page.ask(STAND_IN.replace("ANSWERS", f"[{worse}]"))
    page.press("optimum")
    page.until(DONE)
    came = {"told": page.text("#compared"), "button": page.text("#adopt")}
    wanted = {"told": "✕ worse than the timetable shown (4)", "button": "Take the worse one over"}
    suite.note("a worse one", wanted, came)
    page.again()


GROUPS = [shortcuts, typed, saved, replaced, frames, edited, compared]
