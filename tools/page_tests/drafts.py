"""Drafts: kept in the browser if the planner agrees, offered after a crash, and dropped by a click."""

import os
import signal
import time
from typing import List, Optional, Tuple

from page_tests.hands import TWO_TRAINS, Hands
from page_tests.keys import CTRL
from tests.harness import Suite

KEPT = "Object.keys(localStorage).filter(key => key.startsWith('pespbench-draft-')).length"
NO_STORAGE = "Object.defineProperty(window, 'localStorage', { get() { throw new DOMException('no', 'SecurityError'); } }); 0"

# Fills the browser's storage, in ever smaller parts.
FILLED = """for (let size = 1 << 22; size > 4; size >>= 1) {
    try {
        for (let place = 0; ; place += 1) localStorage.setItem(`x${size}-${place}`, 'x'.repeat(size));
    } catch (fault) { }
}"""


def forget(page: Hands) -> None:
    """A page with empty storage."""
    page.again()
    page.ask("localStorage.clear()")
    page.again()


def tick(page: Hands) -> str:
    """Ticks or unticks the keeping of drafts, by a click."""
    page.press("save")
    page.press("keep-draft")
    told = page.text("#draft-told")
    page.press("saving-close")
    return told


def crash(page: Hands) -> None:
    """Kills the process that draws the page, by its number, and opens the page again."""
    session, page._session = page._session, None
    processes = page.call("SystemInfo.getProcessInfo")["processInfo"]
    page._session = session
    before = page.crashes
    for process in processes:
        if process["type"] == "renderer":
            os.kill(process["id"], signal.SIGKILL)
    # A request that the browser has not seen is never answered.
    for _ in range(600):
        if page.crashes > before:
            break
        time.sleep(0.1)
    page.again()


def is_kept(page: Hands) -> None:
    page.until(f"{KEPT} === 1")


def open_first(page: Hands) -> None:
    """Opens the first listed draft, and waits for the message: the page asks first whether another one holds it."""
    page.click(*page.middle("#drafts .main"))
    page.until("/^the draft of|^The draft cannot/i.test(Page.find('said').textContent)")


def draft_kept(suite: Suite, page: Hands) -> None:
    """Nothing is kept before the planner agrees; then unsaved work exists after a crash, with all of its steps."""
    forget(page)
    page.drag([page.minute(1, 20), page.minute(1, 30)])
    page.ask("new Promise(done => setTimeout(done, 600))")
    suite.note("before it is ticked", {"keys": 0}, {"keys": page.ask("localStorage.length")})
    suite.holds("a word says what is kept", tick(page).startswith("It stays on this machine until it is saved or dropped"))
    is_kept(page)
    page.drag([page.grip(2, "now"), page.minute(2, 50)])
    page.key("z", 90, CTRL)
    page.drag([page.minute(3, 20), page.minute(3, 35)])
    page.ask("Page.moveTrain(21, 3, false)")
    steps = "Page.session.steps.map(Page.titleOf)"
    wanted = {"state": page.state(), "lines": page.lines(), "title": page.text("#title"), "steps": page.ask(steps)}
    page.ask("new Promise(done => setTimeout(done, 600))")
    crash(page)
    told = page.text("#drafts p")
    suite.holds(f"offered: {told}", told.startswith("A draft of “A region of 112 events” of ") and "3 steps" in told)
    suite.note("nothing is opened by itself", {"lines": []}, {"lines": page.lines()})
    open_first(page)
    came = {"state": page.state(), "lines": page.lines(), "title": page.text("#title"), "steps": page.ask(steps)}
    suite.note("opened", wanted, came)
    suite.holds("a train that was moved is told as one", came["steps"][2] == "R2 to Hatton 3 minutes later")
    page.press("undo")
    suite.note("and no longer offered", {"shown": False}, {"shown": page.is_shown("drafts")})
    suite.note("it is not saved", {"saved": False}, {"saved": page.ask("Page.isSaved()")})
    page.press("undo")
    suite.note("its steps are undone", {"lines": ["fix 1 30"]}, {"lines": page.lines()})
    page.ask("new Promise(done => setTimeout(done, 600))")
    crash(page)
    suite.holds("and it is the draft from then on", "1 step," in page.text("#drafts p") and page.ask(KEPT) == 1)


def draft_of_names(suite: Suite, page: Hands) -> None:
    """New names and added activities are in a draft, also names alone."""
    scripts: List[Tuple[str, str, List[str]]] = [
        ("names alone", "Page.addLabels('event\\n1; R9; Inworth; Gorsley; departure\\n')", []),
        ("and a step", "Page.addLabels('event\\n1; R9; Inworth; Gorsley; departure\\n'); Page.step(['fix 1 30'])", ["fix 1 30"]),
    ]
    for name, script, lines in scripts:
        forget(page)
        tick(page)
        page.ask(script)
        is_kept(page)
        page.again()
        open_first(page)
        page.ask("Page.showRow(1)")
        came = {"name": page.text("#chosen-name"), "lines": page.lines(), "saved": page.ask("Page.isSaved()")}
        suite.note(name, {"name": "R9 to Inworth leaves Gorsley", "lines": lines, "saved": False}, came)
        for _ in range(1 + len(lines)):
            page.key("z", 90, CTRL)
        page.frame()
        suite.note(f"{name}, undone", {"saved": True}, {"saved": page.ask("Page.isSaved()")})
    forget(page)
    page.ask("localStorage.clear()")


def drafts_dropped(suite: Suite, page: Hands) -> None:
    """A draft is removed when it is dropped, when all is saved, and when no draft is to be kept."""
    forget(page)
    tick(page)
    page.drag([page.minute(1, 20), page.minute(1, 30)])
    is_kept(page)
    page.again()
    page.click(*page.middle("#drafts button:not(.main)"))
    page.until("Page.find('said').textContent.startsWith('the draft is dropped')")
    came = {"shown": page.is_shown("drafts"), "kept": page.ask(KEPT), "said": page.said()}
    suite.note("dropped", {"shown": False, "kept": 0, "said": "the draft is dropped"}, came)
    saved = "Page.showSaving(); Page.find('save-all').click(); Page.find('saving').close()"
    for name, script in [("undone", "Page.undo()"), ("saved", saved)]:
        page.drag([page.minute(1, 20), page.minute(1, 30)])
        is_kept(page)
        page.ask(script)
        page.until(f"{KEPT} === 0")
        page.again()
        suite.note(f"{name}: nothing is offered", {"shown": False}, {"shown": page.is_shown("drafts")})
    page.drag([page.minute(1, 20), page.minute(1, 30)])
    is_kept(page)
    suite.note("no draft is to be kept", {"told": ""}, {"told": tick(page)})
    suite.note("and nothing is", {"keys": 0}, {"keys": page.ask("localStorage.length")})


def draft_asked(suite: Suite, page: Hands) -> None:
    """A draft replaces unsaved work only at a second click; each of two pages has its own."""
    forget(page)
    tick(page)
    page.drag([page.minute(1, 20), page.minute(1, 30)])
    is_kept(page)
    page.again()
    page.show(TWO_TRAINS, "two trains")
    page.drag([page.minute(1, 2), page.minute(1, 5)])
    page.until(f"{KEPT} === 2")
    page.click(*page.middle("#drafts .main"))
    page.until("document.querySelector('#drafts .main').dataset.asked")
    came = {"lines": page.lines(), "button": page.text("#drafts .main")}
    suite.note("asked", {"lines": ["fix 1 5"], "button": "Open it, and lose what is not saved"}, came)
    open_first(page)
    suite.note("given up", {"lines": ["fix 1 30"]}, {"lines": page.lines()})
    page.again()
    told = page.ask("[...document.querySelectorAll('#drafts p')].map(each => each.textContent.split('”')[0])")
    suite.note("both are offered", {"they": ["A draft of “A region of 112 events", "A draft of “two trains"]}, {"they": told})


def drafts_strange(suite: Suite, page: Hands) -> None:
    """An invalid draft is reported as such and can be dropped; nothing in one acts, and a refused line opens nothing."""
    forget(page)
    base = '{"title":"<img src=x onerror=hostile=1>","at":0,"labels":"","files":{"activities":"1; 1; 2; 3; 5; 2\\\\n","period":"10"},"steps":STEPS}'
    unread = "A draft in this browser cannot be read."
    for name, text, told in [
        ("no JSON", "{", unread),
        ("other JSON", "[1]", unread),
        ("no files", '{"title":"a","at":0,"labels":"","steps":[]}', unread),
        ("no labels", base.replace('"labels":"",', "").replace("STEPS", "[]"), unread),
        ("two lines in one", base.replace("STEPS", '[["fix 1 3\\\\nadd event 9"]]'), unread),
        ("a search", base.replace("STEPS", '[["adopt"]]'), unread),
        ("a day that is none", '{"title":"a","at":1e99,"labels":"","files":{},"steps":[]}', unread),
        ("a file of commands", base.replace('"period"', '"lines":"adopt","period"').replace("STEPS", '[["fix 1 3"]]'), unread),
        ("markup", base.replace("STEPS", '[["fix 1 3"]]'), "A draft of “<img src=x onerror=hostile=1>” of "),
        ("a line that is refused", base.replace("STEPS", '[["fix 7 3"]]'), "A draft of “<img src=x onerror=hostile=1>” of "),
    ]:
        page.ask(f"localStorage.clear(); localStorage.setItem('pespbench-draft-0', '{text}')")
        page.again()
        shown = page.text("#drafts p")
        suite.note(name, {"told": told}, {"told": shown[: len(told)]})
    open_first(page)
    came = {"said": page.said(), "title": page.text("#title")}
    told = "The draft cannot be opened: no event 7."
    suite.note("refused", {"said": told, "title": "A region of 112 events"}, came)
    came = {"acted": page.ask("typeof hostile"), "images": page.ask("document.images.length")}
    suite.note("and nothing acts", {"acted": "undefined", "images": 0}, came)
    page.ask("localStorage.clear()")


class Second:
    """Another page of the same browser, to which the input goes for a while."""

    def __init__(self, page: Hands) -> None:
        self.page, self.first = page, page._session

    def __enter__(self) -> "Second":
        self.page._session = None
        self.target = self.page.call("Target.createTarget", url=self.page.address)["targetId"]
        self.second = self.page.call("Target.attachToTarget", targetId=self.target, flatten=True)["sessionId"]
        self.turn(self.second)
        self.page.call("Page.enable")
        self.page.until("document.body.classList.contains('ready')")
        return self

    def turn(self, session: Optional[str]) -> None:
        """Switches to one of the two pages."""
        self.page._session = session
        self.page.call("Page.bringToFront")

    def __exit__(self, *_: object) -> None:
        self.page._session = None
        self.page.call("Target.closeTarget", targetId=self.target)
        self.turn(self.first)


LISTED = "[...document.querySelectorAll('#drafts p')].map(each => each.textContent)"
KEYS = "Object.keys(localStorage).filter(key => key.startsWith('pespbench-draft-')).sort()"
STEPS_KEPT = f"{KEYS}.map(key => JSON.parse(localStorage[key]).steps.flat().join()).sort()"


def drafts_apart(suite: Suite, page: Hands) -> None:
    """A draft belongs to the page that holds it: another one opens a copy, drops none of it, and removes none of it by saving its
    own."""
    forget(page)
    tick(page)
    page.drag([page.minute(1, 20), page.minute(1, 30)])
    is_kept(page)
    page.again()
    page.click(*page.middle("#drafts .main"))
    page.until("Page.journal().length === 1")
    with Second(page) as both:
        came = {"listed": [text.split(", ")[-1] for text in page.ask(LISTED)]}
        suite.note("in another page", {"listed": ["is open in another page.Open a copy"]}, came)
        page.click(*page.middle("#drafts .main"))
        page.until("Page.journal().length === 1")
        suite.holds(f"a copy: {page.said()}", "as one of its own, and not saved yet" in page.said())
        page.drag([page.minute(2, 20), page.minute(2, 40)])
        page.until(f"{KEPT} === 2 && {STEPS_KEPT}.includes('fix 1 30,fix 2 40')")
        suite.note("each has its own", {"kept": ["fix 1 30", "fix 1 30,fix 2 40"]}, {"kept": page.ask(STEPS_KEPT)})
        both.turn(both.first)
        page.drag([page.minute(3, 20), page.minute(3, 25)])
        page.until(f"{STEPS_KEPT}.includes('fix 1 30,fix 3 25')")
        both.turn(both.second)
        page.ask("Page.showSaving(); Page.find('save-all').click(); Page.find('saving').close()")
        page.until(f"{KEPT} === 1")
        suite.note("saved in one", {"kept": ["fix 1 30,fix 3 25"]}, {"kept": page.ask(STEPS_KEPT)})
        both.turn(both.first)
        suite.note("the other one has its work", {"lines": ["fix 1 30", "fix 3 25"]}, {"lines": page.lines()})
        page.again()
        both.turn(both.second)
        page.until("document.querySelector('#drafts .main').textContent === 'Open it'")
        suite.note("free once it is left", {"buttons": 2}, {"buttons": page.ask("document.querySelectorAll('#drafts button').length")})
    page.ask("localStorage.clear()")
    forget(page)


def drafts_refused(suite: Suite, page: Hands) -> None:
    """A browser that refuses storage, or has no room, is reported, and the page continues."""
    forget(page)
    page.ask(NO_STORAGE)
    told = tick(page)
    came = {"told": told, "ticked": page.ask("Page.find('keep-draft').checked")}
    suite.note("nothing may be kept", {"told": "This browser does not let the page keep anything.", "ticked": False}, came)
    page.drag([page.minute(1, 20), page.minute(1, 30)])
    suite.note("a step", {"lines": ["fix 1 30"]}, {"lines": page.lines()})
    [script] = [page.call("Page.addScriptToEvaluateOnNewDocument", source=NO_STORAGE)["identifier"]]
    page.again()
    suite.note("from the start", {"title": "A region of 112 events"}, {"title": page.text("#title")})
    page.call("Page.removeScriptToEvaluateOnNewDocument", identifier=script)
    forget(page)
    tick(page)
    page.ask(FILLED)
    page.drag([page.minute(1, 20), page.minute(1, 30)])
    page.until("Page.find('said').textContent.includes('no room')")
    word = "This state has no draft: the browser has no room for it."
    suite.note("no room", {"said": f"R1 to Inworth leaves Gorsley: held at :30 — {word}"}, {"said": page.said()})
    page.drag([page.minute(1, 20), page.minute(1, 35)])
    page.ask("new Promise(done => setTimeout(done, 600))")
    suite.note("which is told once", {"said": "R1 to Inworth leaves Gorsley: held at :35"}, {"said": page.said()})
    page.press("save")
    suite.note("and where it is chosen", {"told": word}, {"told": page.text("#draft-told")})
    page.press("saving-close")
    forget(page)


GROUPS = [draft_kept, draft_of_names, drafts_dropped, draft_asked, drafts_strange, drafts_apart, drafts_refused]
