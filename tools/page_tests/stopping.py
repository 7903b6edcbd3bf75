"""A running search: its clock, the best cost, a bound and its distance from the best; stopped, resumed, adopted, and beside edits."""

import re
from typing import List, Optional

from page_tests.hands import TWO_TRAINS, Hands
from page_tests.keys import CODES, CTRL
from page_tests.searching import DONE, soon_found
from page_tests.untouched import STAND_IN
from tests.harness import Suite, within

FOUND, CLOCK = "Page.find('found').textContent", "Page.find('clock').textContent"
# A timetable that may not be the best, with a bound or without.
BEST = re.compile(r"Cost ([\d,]+), (?:at most [\d,.]+ % above the best|perhaps not the best)(?: \(none can be below ([\d,]+)\))?$")
IS_BEST = f"{FOUND}.startsWith('Cost ')"

# Records the tasks of a Worker, except requests to pause, which are dropped if required.
HEARD = """(() => {
    const { postMessage } = Worker.prototype;
    window.questions = [];
    Worker.prototype.postMessage = function post(question) {
        if (question.kind && question.kind !== 'rest') window.questions.push(question);
        if (!question.kind || !window.isHeld) postMessage.call(this, question);
    };
})()"""

# The text on the best and its button, at one moment: a running search may find another one at any time.
OFFERED = """({ found: Page.find('found').textContent, told: Page.find('compared').textContent,
    adopt: Page.find('adopt').getClientRects().length > 0, keys: document.activeElement.id })"""


def cost_of(text: str) -> List[Optional[int]]:
    """The cost of the best in the text, and the bound, or None."""
    told = BEST.match(text)
    assert told is not None
    return [None if number is None else int(number.replace(",", "")) for number in told.groups()]


def begun(page: Hands, by: str = "mouse") -> None:
    """Starts a search by a click or by Enter, and waits for a timetable."""
    if by == "mouse":
        page.press("optimum")
    else:
        page.ask("Page.find('optimum').focus()")
        page.type("\n")
    page.until(IS_BEST)


def in_words(suite: Suite, page: Hands) -> None:
    """The results of searches are described in a planner's words, exactly, and never as better than they are."""
    for answer, told in [
        ("kind: 'none'", "No timetable yet"),
        ("kind: 'none', bound: 14502", "No timetable yet; none can be below 14,502"),
        ("kind: 'stopped', cost: 14816, bound: 14502", "Cost 14,816, at most 2.2 % above the best (none can be below 14,502)"),
        ("kind: 'stopped', cost: 14502, bound: 14500", "Cost 14,502, at most 0.1 % above the best (none can be below 14,500)"),
        ("kind: 'stopped', cost: 14816", "Cost 14,816, perhaps not the best"),
        ("kind: 'stopped', cost: 14816, bound: 0", "Cost 14,816, perhaps not the best"),
        ("kind: 'stopped', cost: 14816, bound: 3", "Cost 14,816, perhaps not the best (none can be below 3)"),
        ("kind: 'stopped', cost: 9007199254740995n, bound: 9007199254740993n", "Cost 9,007,199,254,740,995, at most 0.1 % above the best (none can be below 9,007,199,254,740,993)"),
        ("kind: 'stopped', cost: 14816, bound: 14816", "Cost 14,816: no timetable is better."),
        ("kind: 'optimum', cost: 14816, bound: 14816", "Cost 14,816: no timetable is better."),
        ("kind: 'infeasible'", "✕ No timetable meets everything."),
    ]:
        page.again()
        page.show({**TWO_TRAINS, "times": ""})
        times = "[[1, 0], [2, 4]]" if "cost" in answer else "null"
        page.ask(STAND_IN.replace("ANSWERS", f"[{{ {answer}, times: {times} }}]").replace("new Map(found.times)", "found.times && new Map(found.times)"))
        page.press("optimum")
        page.until(DONE)
        suite.note(answer, {"told": told}, {"told": page.text("#found")})
        is_open = not told.endswith(".")
        suite.note(f"{answer}: the button", {"it": "Go on" if is_open else "Find the optimum"}, {"it": page.text("#optimum")})
    page.again()


def answers_kept(suite: Suite, page: Hands) -> None:
    """Of several answers the best cost and the best bound are kept, whichever had them; when they meet, the search ends."""
    page.again()
    page.show({**TWO_TRAINS, "times": ""})
    answers = [f"{{ kind: 'stopped', cost: {cost}, bound: {bound}, times: [[1, 0], [2, 4]] }}" for cost, bound in [(90, 60), (100, 80), (85, 70)]]
    last = "{ kind: 'stopped', cost: 85, bound: 85, times: [[1, 0], [2, 4]] }"
    page.ask(STAND_IN.replace("ANSWERS", f"[{', '.join(answers)}]"))
    page.press("optimum")
    page.until(DONE)
    suite.note("the best of each", {"told": "Cost 85, at most 6.3 % above the best (none can be below 80)"}, {"told": page.text("#found")})
    page.again()
    page.show({**TWO_TRAINS, "times": ""})
    page.ask(STAND_IN.replace("ANSWERS", f"[{answers[0]}, {last}, {answers[1]}]"))
    page.press("optimum")
    page.until(DONE)
    suite.note("they meet", {"told": "Cost 85: no timetable is better."}, {"told": page.text("#found")})
    page.again()


@within(240)
def stopped_and_gone_on(suite: Suite, page: Hands) -> None:
    """A search is stopped at once, and resumed: its clock and its result are unchanged."""
    for by in ("mouse", "keys"):
        page.again()
        page.ask(HEARD)
        page.show(soon_found())
        begun(page, by)
        suite.holds(f"{by}: the clock", re.match(r"\d+ s$", page.text("#clock")))
        suite.note(f"{by}: the keys", {"at": "stop"}, {"at": page.ask("document.activeElement.id")})
        second = int(page.text("#clock").split()[0])
        page.until(f"Number({CLOCK}.split(' ')[0]) > {second}")
        told = page.text("#found")
        suite.holds(f"{by}: a bound and how far it is: {told}", cost_of(told)[1])
        if by == "mouse":
            page.press("stop")
        else:
            page.type("\n")
            page.frame()
        cost, bound = cost_of(page.text("#found"))
        took = re.match(r"stopped after ([\d.]+) s$", page.text("#clock"))
        suite.holds(f"{by}: stopped", took and not page.is_shown("stop") and page.said() == "the search was stopped")
        assert took is not None
        came = {"button": page.text("#optimum"), "keys": page.ask("document.activeElement.id") in ("adopt", "optimum"), "adopt": page.is_shown("adopt")}
        suite.note(f"{by}: what can be done", {"button": "Go on", "keys": True, "adopt": True}, came)
        # No answer arrives before the check.
        page.ask("window.isHeld = true; Page.find('optimum').focus()")
        if by == "mouse":
            page.press("optimum")
        else:
            page.type("\n")
        # The seconds of a search are rounded to tenths.
        suite.holds(f"{by}: the clock goes on", int(page.text("#clock").split()[0]) >= int(float(took[1]) - 0.05))
        suite.holds(f"{by}: what it has come to stays", cost_of(page.text("#found")) == [cost, bound])
        before, after = page.ask("window.questions.map(({ best }) => best && Number(best.cost))")
        suite.note(f"{by}: the best is told it", {"best": [None, cost]}, {"best": [before, after]})
        page.press("stop")


@within(240)
def adopted_meanwhile(suite: Suite, page: Hands) -> None:
    """A result is adopted while the search runs, and undone by one Undo; the search continues, and offers a better one."""
    for by in ("mouse", "keys"):
        page.again()
        page.show(soon_found())
        begun(page, by)
        if by == "mouse":
            # A later result moves the button away below the mouse.
            for _ in range(5):
                page.press("adopt")
                if page.ask("Page.session.place"):
                    break
        else:
            page.ask("Page.find('adopt').focus()")
            page.type("\n")
        cost = page.text("#figure-cost b")
        suite.holds(f"{by}: adopted", page.ask("Page.session.place") == 1 and page.said() == f"taken over: the best that was found, cost {cost}")
        suite.holds(f"{by}: it goes on", page.is_shown("stop"))
        came = page.ask(OFFERED)
        if came.pop("found").startswith(f"Cost {cost},"):
            suite.note(f"{by}: it is told", {"told": "it is the timetable shown", "adopt": False, "keys": "stop"}, came)
        page.key("z", 90, CTRL)
        came = {"place": page.ask("Page.session.place"), "cost": page.text("#figure-cost b"), "stop": page.is_shown("stop"), "adopt": page.is_shown("adopt")}
        suite.note(f"{by}: undone", {"place": 0, "cost": "–", "stop": True, "adopt": True}, came)
        page.press("stop")
        page.press("adopt")
        suite.holds(f"{by}: after the stop", page.text("#figure-violations b") == "0" and page.text("#compared") == "it is the timetable shown")
    page.ask("Page.find('optimum').focus()")
    page.ask(HEARD)
    page.press("optimum")
    page.until("window.questions.length === 1")
    came = page.ask("String(window.questions[0].best.cost)")
    suite.note("the timetable shown is what it begins with", {"cost": page.ask("String(Page.view.cost)")}, {"cost": came})
    page.press("stop")


@within(240)
def beside_hands(suite: Suite, page: Hands) -> None:
    """Choosing, scrolling, other views and a time that is set do not affect a search; an edit of the network ends it, and the page
    says so."""
    page.again()
    page.show(soon_found())
    begun(page)
    page.click(*page.middle('[data-row="3"] .name'))
    for away in (400, -400):
        page.call("Input.dispatchMouseEvent", type="mouseWheel", x=300, y=500, deltaX=0, deltaY=away)
        page.frame()
    for tab in ("tables", "lines", "gains", "diagram"):
        page.press(f"tab-{tab}")
    suite.note("chosen, scrolled, drawn", {"stop": True, "chosen": 3, "lines": []}, {"stop": page.is_shown("stop"), "chosen": page.ask("Page.chosen"), "lines": page.lines()})
    page.fill("#time-at", "7\n")
    suite.note("a time is set", {"stop": True, "lines": ["time 3 7"]}, {"stop": page.is_shown("stop"), "lines": page.lines()})
    page.click(*page.minute(3, 30))
    page.key("ArrowRight", CODES["ArrowRight"])
    page.frame()
    told = page.said()
    suite.holds(f"an edit ends it: {told}", "the search has ended with it; the timetable of cost " in told and not page.is_shown("stop"))
    came = {"found": page.text("#found"), "clock": page.text("#clock"), "button": page.text("#optimum")}
    suite.note("nothing of it is told", {"found": "", "clock": "", "button": "Find the optimum"}, came)
    page.key("z", 90, CTRL)
    suite.holds("undone, it is told again", BEST.match(page.text("#found")) and page.text("#optimum") == "Go on" and page.is_shown("adopt"))


@within(180)
def without_any(suite: Suite, page: Hands) -> None:
    """If nothing meets everything the page says so, and a button leads to the repairs, by a click and by keys."""
    for by in ("mouse", "keys"):
        page.again()
        page.ask("Page.openStory(Page.stories[1])")
        page.frame()
        if by == "mouse":
            page.press("optimum")
        else:
            page.ask("Page.find('optimum').focus()")
            page.type("\n")
        page.until(DONE)
        came = {"told": page.text("#found"), "adopt": page.is_shown("adopt"), "leads": page.is_shown("ask-mends")}
        suite.note(f"{by}: none", {"told": "✕ No timetable meets everything.", "adopt": False, "leads": True}, came)
        if by == "mouse":
            page.press("ask-mends")
        else:
            suite.note("the keys", {"at": "ask-mends"}, {"at": page.ask("document.activeElement.id")})
            page.type("\n")
        page.until("Page.find('stop').hidden && document.querySelector('#reasons .mend')")
        suite.note(f"{by}: the view", {"tab": "why"}, {"tab": page.ask("Page.tab")})
        if by == "mouse":
            page.click(*page.middle("#reasons .mend"))
        else:
            page.type("\n")
        page.frame()
        came = {"lines": len(page.lines()), "leads": page.is_shown("ask-mends"), "found": page.text("#found")}
        suite.note(f"{by}: mended", {"lines": 1, "leads": False, "found": ""}, came)
    page.ask("Page.showTab('diagram')")


def in_numbers(suite: Suite, page: Hands) -> None:
    """The result in numbers is that of the line `optimum`."""
    none = {**TWO_TRAINS, "times": "", "activities": "1; 1; 2; 3; 3; 2\n2; 2; 1; 4; 6; 1\n"}
    for texts, told, lines in [
        ({**TWO_TRAINS, "times": ""}, "Cost 4: no timetable is better.", ["optimum 4 2", "1 0", "2 4"]),
        (none, "✕ No timetable meets everything.", ["infeasible"]),
    ]:
        page.again()
        page.show(texts)
        page.press("optimum")
        page.until(DONE)
        if page.is_shown("adopt"):
            page.press("adopt")
        times = page.ask("[...Page.view.times].map(([event, time]) => `${event} ${time}`)")
        came = {"found": page.text("#found"), "lines": page.ask("Page.ask(['optimum'])[0]"), "times": times}
        suite.note(told, {"found": told, "lines": lines, "times": lines[1:]}, came)


@within(120)
def on_any_screen(suite: Suite, page: Hands) -> None:
    """The text of a search is completely visible on a wide screen and on a small one, during the search and after."""
    for width in (1360, 390):
        page.again()
        page.resize(width, 850)
        page.show({**TWO_TRAINS, "times": ""})
        answer = "{ kind: 'stopped', cost: 1234567, bound: 1200000, times: [[1, 0], [2, 4]] }"
        page.ask(STAND_IN.replace("ANSWERS", f"[{answer}, {answer}]").replace("50 * place", "2000 * place"))
        page.press("optimum")
        page.until(IS_BEST)
        for when in ("running", "ended"):
            boxes = page.ask("['clock', 'found', 'adopt'].map(name => Page.find(name).getBoundingClientRect()).map(({ left, right, width }) => [left, right, width])")
            suite.holds(f"{width} points, {when}", all(left >= 0 and right <= width and wide > 0 for left, right, wide in boxes))
            page.until(DONE)
    page.resize(1440, 900)
    page.again()


GROUPS = [in_words, answers_kept, in_numbers, stopped_and_gone_on, adopted_meanwhile, beside_hands, without_any, on_any_screen]
