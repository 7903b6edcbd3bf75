"""The texts that appear while a planner works: trains in words, no command except in Steps, no bare number where there are names,
and cost by its name."""

import re
import tempfile
from typing import Callable, Dict, List, Sequence, Tuple

from page_tests.hands import Hands
from page_tests.keys import CODES, CTRL, SHIFT
from page_tests.untouched import placed
from tests.harness import Suite, within

# A line for the program, and a text that names an event or an activity only by its number.
COMMAND = re.compile(r"\b(?:(?:fix|time|weight) -?\d+ -?\d+|(?:un(?:fix|time)|(?:add|drop) event|drop activity|try|domain) \d+|(?:window|ends) \d+ \d+ \d+|span \d+ -?\d+ -?\d+|add activity \d+ \d+)\b|\b(?:refused|fault) \d*")
NUMBER = re.compile(r"\b(?:event|activity) \d+\b")
AVOIDED = re.compile(r"\b(?:narrowed|cases?|drawn|adopt\w*|spans?)\b", re.I)
COST = re.compile(r"\bcosts?\b|\bdear(?:er)?\b|\bcheap(?:er)?\b", re.I)
# All texts that appear, visible or not, except those of Steps and typed ones.
HEARD = """(() => {
    const heard = window.heard = new Set(), NAMES = ['title', 'aria-label', 'aria-valuetext', 'placeholder'];
    const isHere = node => Boolean(node.parentElement) && !(node.nodeType === 1 ? node : node.parentElement).closest('#view-lines, script, style');
    const hear = node => {
        if (!isHere(node)) return;
        if (node.nodeType === 3) return heard.add((node.parentElement.closest('p, li, button, td, summary, h2, h3, output') || node).textContent);
        for (const name of NAMES) if (node.getAttribute?.(name)) heard.add(node.getAttribute(name));
        node.childNodes.forEach(hear);
    };
    hear(document.body);
    const watched = { subtree: true, childList: true, characterData: true, attributes: true, attributeFilter: NAMES };
    new MutationObserver(changes => changes.forEach(({ target, addedNodes }) => {
        hear(target.nodeType === 3 || !addedNodes.length ? target : { nodeType: 9, parentElement: target, childNodes: addedNodes });
    })).observe(document.body, watched);
})()"""
DONE = "Page.find('stop').hidden"
BEST_KNOWN = "!/^$|looked for/.test(Page.find('above').textContent)"


def held(page: Hands) -> None:
    """Holds, widens, moves and releases; types a time, one beyond the period, and none."""
    page.drag([page.minute(1, 20), page.minute(1, 30)])
    page.drag([page.grip(1, "last"), page.minute(1, 36)])
    page.key("ArrowRight", CODES["ArrowRight"])
    page.click(*page.minute(1, 33), count=2)
    for text in ("0:41\n", "375\n", "6.5\n"):
        page.fill("#time-at", text)
    page.press("no-time")
    page.press("undo")
    page.press("redo")
    page.press("undo")


def moved(page: Hands) -> None:
    """Moves a train by keys, and sees, rejects and accepts its mend; another one cannot be mended."""
    page.ask("document.querySelector('[data-way=\"21\"]').focus()")
    for _ in range(3):
        page.key("ArrowRight", CODES["ArrowRight"])
    page.press("tab-violated")
    for button in ("leave-proposed", "take-proposed"):
        page.press("mend")
        page.until(f"{DONE} && !Page.find('proposed').hidden")
        page.press(button)
    page.ask("Page.find('most-moved').value = '2'; Page.step(['window 21 5 3', 'time 21 50']); Page.moveTrain(41, 20, false)")
    page.press("mend")
    page.until(f"{DONE} && !Page.find('proposed').hidden")
    page.ask("Page.goTo(0)")
    page.press("tab-diagram")


def spans(page: Hands) -> None:
    """Changes minutes and weight by keys and fields, two of them invalid; and asks for the price of each length and each minute."""
    page.ask("Page.showRow(4)")
    card = '[data-activity="4"]'
    page.ask(f"document.querySelector('{card} [data-end=upper]').focus()")
    page.key("ArrowRight", CODES["ArrowRight"])
    for place, text in [(1, "9\n"), (0, "20\n"), (2, "77\n"), (2, "x\n")]:
        page.click(*page.middle(f"{card} .fields label:nth-of-type({place + 1}) input"), count=3)
        page.type(text)
    page.click(*page.middle(f"{card} [data-price]"))
    page.press("ask-prices")
    page.until("/^Each/.test(document.querySelector('#prices .priced p').textContent)")
    page.ask("Page.step(['fix 81 35'])")
    page.press("prices-of-train")
    page.until("/^Best[^.]*[.]( No[^.]*[.])?$/.test(document.querySelector('#prices .priced p').textContent)")
    left, top, width, height = page.box("#prices .curve")
    for part in range(1, 20):
        page.mouse("mouseMoved", left + part * width / 20, top + height / 2)
        page.frame()
    page.press("ask-prices")
    page.ask("Page.goTo(0)")


def searched(page: Hands) -> None:
    """Searches, sees and takes over the result, and looks at all timetables found; asks why a network has none."""
    page.fill("#nodes", "40\n")
    page.until(DONE)
    page.press("optimum")
    page.until(f"{DONE} && /no timetable is better/.test(Page.find('found').textContent)")
    page.press("see")
    page.press("take-proposed")
    page.press("undo")
    page.press("adopt")
    page.ask("Page.find('offers').open = true; Page.moveTrain(1, 3, false)")
    page.frame()
    page.ask("Page.step(['span 4 2 2', 'fix 3 10', 'fix 4 30'])")
    page.press("ask-why")
    page.until(DONE)
    page.ask("Page.goTo(0)")
    page.press("tab-gains")
    page.press("ask-gains")
    page.until("document.querySelector('#gains tbody tr') || Page.find('stop').hidden")
    page.ask("Page.find('stop').click()")


def followed(page: Hands) -> None:
    """The best is always searched for, and the rest follows a train, if nothing else is held and if something is."""
    page.press("tab-diagram")
    page.press("always")
    page.until(BEST_KNOWN)
    for line in ("[]", "['fix 41 46']"):
        page.ask(f"Page.step({line}); Page.moveTrain(21, 3, false)")
        page.until("Page.session.steps.at(-1).title.endsWith('and the rest follows')")
    page.press("always")
    page.ask("Page.goTo(0)")


def compared(page: Hands) -> None:
    """Keeps two variants that differ in everything, and looks at both."""
    page.press("keep-A")
    page.ask("Page.step(['span 1 9 22', 'weight 3 77', 'fix 2 5', 'drop activity 100', 'ends 90 5 8', 'time 7 1', 'add event 300', 'time 300 12', 'add activity 300 4 300 3 9 5'])")
    page.press("keep-B")
    page.ask("Page.goTo(0)")
    page.press("take-B")
    page.press("undo")
    page.press("tab-diagram")


def made(page: Hands) -> None:
    """Adds and drops activities, events and a line, names one, and changes a line in each way."""
    page.ask("Page.showRow(4)")
    page.press("add-from")
    page.ask("Page.choose(9)")
    for name, text in [("kind", "walk"), ("least", "9"), ("most", "3\n"), ("most", "20\n")]:
        page.fill(f"#added-{name}", text)
    page.click(*page.middle('[data-activity="146"] .drop'))
    page.press("drop-event")
    page.click(*page.middle("#adding summary"))
    page.fill("#named-station", "Marden West\n")
    page.press("tab-tables")
    forms: Dict[str, Dict[str, str]] = {
        "stop-line": {"stop-station": "Halt", "stop-before": "5", "stop-after": "6"},
        "copy-line": {"copy-minutes": "7", "copy-name": "R9"}, "rename-line": {"altered-name": "R8"},
        "hourly-line": {"hourly": "7"}, "drop-line": {},
    }  # fmt: skip
    for form, fields in forms.items():
        page.click(*page.middle("[data-alter]"))
        page.frame()
        for name, text in fields.items():
            page.fill(f"#{name}", text)
        page.click(*page.middle(f"#{form} button:not([type])"))
        page.frame()
        if page.is_shown("altering"):
            page.press("altering-close")
    page.ask("Page.goTo(0)")
    page.press("tab-diagram")


def looked(page: Hands) -> None:
    """Finds, opens each view and each help, prints, and saves."""
    for text in ("5", "dale", "r2"):
        page.fill("#finder input", text)
    page.type("\n")
    for name in page.ask("[...document.querySelectorAll('[role=tab]')].map(each => each.id)"):
        page.press(name)
        page.frame()
    page.ask("document.querySelectorAll('[data-help]').forEach(each => each.click()); Page.find('helping').hidePopover()")
    page.ask("dispatchEvent(new Event('beforeprint')); dispatchEvent(new Event('afterprint'))")
    for button, dialog in [("save", "saving"), ("open", "opening"), ("choose-paper", "papers")]:
        page.press(button)
        page.press(f"{dialog}-close")
    page.press("tab-diagram")


def opened(page: Hands) -> None:
    """Opens files of which a window, and a command, is refused."""
    names = "event; line; to; station; kind\n1; M; Benton; Ashford; departure\n2; M; Benton; Benton; arrival\n"
    for more in ({"windows": "1; 3; 11\n"}, {"lines": "span 1 9 3\n"}, {"lines": "fix 2 75\nadopt\n"}):
        with tempfile.TemporaryDirectory() as folder:
            page.drop(*placed(folder, {"activities": "1; 1; 2; 3; 5; 2\n", "labels": names, "period": "10", **more}))
            page.until(f"{DONE} && Page.find('opening-fault').textContent")
            page.press("opening-close")


ACTS: Sequence[Callable[[Hands], None]] = (held, moved, spans, searched, followed, compared, made, looked, opened)


def heard(suite: Suite, page: Hands, acts: Sequence[Callable[[Hands], None]]) -> List[str]:
    """The texts that appear during an action."""
    page.ask(HEARD)
    for act in acts:
        act(page)
        page.frame()
    texts: List[str] = sorted(page.ask("[...window.heard]"))
    suite.holds(f"{len(texts)} texts", len(texts) > 50)
    return texts


def without(suite: Suite, texts: List[str], forms: Sequence[Tuple[str, "re.Pattern[str]"]]) -> None:
    """None of the texts has one of some forms."""
    for name, form in forms:
        suite.note(name, {"texts": []}, {"texts": [text[:200] for text in texts if form.search(text)]})


@within(300)
def in_words_of_trains(suite: Suite, page: Hands) -> None:
    """Messages, lists, faults and help name line, direction, station and minute, and use no word that a planner would not use."""
    page.again()
    texts = heard(suite, page, ACTS)
    without(suite, texts, [("commands", COMMAND), ("avoided words", AVOIDED)])
    # Event 300 and its activity have no names.
    without(suite, [text for text in texts if "event 300" not in text], [("numbers", NUMBER)])
    wanted = ["R1 to Inworth leaves Gorsley: held at :30", "undone: R1 to Inworth leaves Gorsley: without a time", "R1 to Inworth leaves Gorsley: minute 375 is beyond the period",
              "M to Benton leaves Ashford: it cannot be held for 11 minutes of the period", "M to Benton arrives at Benton: minute 75 is beyond the period"]  # fmt: skip
    suite.note("said", {"they": wanted}, {"they": [text for text in wanted if any(text in each for each in texts)]})


@within(300)
def in_words_of_cost(suite: Suite, page: Hands) -> None:
    """If the network gives cost a name, everything uses that name."""
    page.again()
    page.press("tab-tables")
    page.fill("#cost-name", "passenger minutes\n")
    page.ask("Page.openTexts({ ...Page.filesToSave(), period: '60' }, 'named')")
    page.press("tab-diagram")
    texts = heard(suite, page, [act for act in ACTS if act is not opened])
    others = [text for text in texts if "cost is called" not in text.lower()]
    without(suite, others, [("cost by another name", COST)])
    for form in (r"\d passenger minutes (more|less)", r"Passenger minutes", r"passenger minutes in all", r"[\d,]+ passenger minutes: no timetable is better", r"has [\d,]+ passenger minutes more", r"passenger minutes of change"):
        suite.holds(f"said: {form}", any(re.search(form, text) for text in others))


def without_names(suite: Suite, page: Hands) -> None:
    """Without labels events have numbers, and no command appears either."""
    page.show({"activities": "1; 1; 2; 3; 5; 2\n2; 2; 1; 4; 6; 1\n", "times": "1; 0\n2; 3\n", "period": "10\n"})
    page.ask(HEARD)
    page.drag([page.minute(1, 2), page.minute(1, 4)])
    page.key("z", 90, CTRL)
    page.key("y", 89, CTRL)
    page.ask("document.querySelector('[data-activity=\"1\"] [data-end=upper]').focus()")
    page.key("ArrowRight", CODES["ArrowRight"], SHIFT)
    for name in ("Try", "ask-why"):
        page.press(name.lower())
        page.until(DONE)
    page.press("drop-event")
    texts = page.ask("[...window.heard]")
    without(suite, texts, [("commands", COMMAND), ("avoided words", AVOIDED)])
    for text in ("event 1: held at :04", "undone: event 1: held at :04", "done again: event 1: held at :04", "event 1 dropped"):
        suite.holds(f"said: {text}", any(text in each for each in texts))
    page.press("tab-lines")
    steps = page.ask("[...document.querySelectorAll('#steps li')].map(each => each.textContent)")
    suite.holds(f"in Steps commands are listed: {steps[0]}", steps[0].startswith("event 1: held at :04 — fix 1 4"))
    suite.holds(f"and numbers: {page.text('#chosen-number')}", page.text("#chosen-number").startswith("event 2: event 2"))
    page.again()


GROUPS = [in_words_of_trains, in_words_of_cost, without_names]
