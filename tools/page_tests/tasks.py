"""A planner's tasks, each done once by a mouse and once by keys, in the number of steps of page/README.md."""

import base64
import os
import re
from typing import Any, Callable, Dict, List, Tuple

from page_tests.costing import CURVE, WHOLE
from page_tests.hands import Hands
from page_tests.keys import CODES, CTRL, SHIFT
from page_tests.layouts import texts_of
from page_tests.mending import PROPOSED
from page_tests.moving import TRAINS, begun
from pespbench.drawn import draw_region
from tests.harness import TOP, Suite, within

KEYS = {**CODES, "Escape": 27}
DONE = "Page.find('stop').hidden"
TIMES = "Object.fromEntries(Page.view.times)"
VIOLATED = "Page.countViolated(Page.view)"


class Steps:
    """Input that is counted: a drag, a click, a key, or a typed word is one step."""

    def __init__(self, page: Hands) -> None:
        self.page, self.count = page, 0

    def drag(self, selector: str, minutes: float, width: float) -> None:
        """Drags the middle of an element by some minutes, of which its width has this many."""
        self.count += 1
        x, y = self.page.middle(selector)
        minute = self.page.box(selector)[2] / width
        self.page.drag([(x, y), (x + minutes * minute / 2, y), (x + minutes * minute, y)])

    def click(self, selector: str) -> None:
        self.count += 1
        self.page.click(*self.page.middle(selector))
        self.page.frame()

    def key(self, name: str, modifiers: int = 0, times: int = 1) -> None:
        for _ in range(times):
            self.count += 1
            self.page.key(name, KEYS.get(name) or ord(name.upper()), modifiers)
            self.page.frame()

    def word(self, text: str) -> None:
        """A word that is typed into the focused field; a line feed, which is Enter, is one more step."""
        self.count += 1 + text.count("\n")
        self.page.type(text)

    def press(self, letter: str) -> None:
        """A key that is a letter, or a line feed for Enter."""
        self.count += 1
        self.page.type(letter)

    def seek(self, text: str) -> None:
        """Finds a train, an event or a station by its name."""
        self.press("/")
        self.word(f"{text}\n")

    def back(self, identifier: str) -> None:
        """Goes from the search field back to the element of an id."""
        self.press("/")
        for _ in range(20):
            if self.page.ask("document.activeElement.id") == identifier:
                return
            self.key("Tab", SHIFT)
        raise AssertionError(f"no way leads back to {identifier}")


# A task in one way, and its result.
Way = Callable[[Steps], object]


def told() -> Dict[str, List[int]]:
    """The steps in the document, of each task by a mouse and by keys."""
    rows = re.findall(r"^\|([^|]+)\|(\d+)\|(\d+)\|$", (TOP / "page/README.md").read_text(), re.M)
    return {task: [int(mouse), int(keys)] for task, mouse, keys in rows}


def compared(suite: Suite, page: Hands, task: str, by_mouse: Way, by_keys: Way) -> Any:
    """Does a task in both ways, and compares the results, and the steps with the document's."""
    made, counts = [], []
    for hands in (by_mouse, by_keys):
        page.again()
        steps = Steps(page)
        made.append(hands(steps))
        counts.append(steps.count)
    suite.note(f"{task}: steps", {"steps": told().get(task)}, {"steps": counts})
    suite.note(f"{task}: by keys", {"made": made[0]}, {"made": made[1]})
    return made[0]


def shifted(suite: Suite, page: Hands) -> None:
    """A train runs 3 minutes later; the violated turn is red at its place, and is mended by the train back."""

    def by_mouse(steps: Steps) -> object:
        broken = []
        for event in (21, 31):
            steps.drag(f'[data-way="{event}"]', 3, 60)
            broken.append(page.ask(VIOLATED))
        return broken, page.ask(TIMES)

    def by_keys(steps: Steps) -> object:
        broken = []
        for name in ("R2 to Hatton", "R2 to Cranley"):
            steps.seek(name)
            steps.key("ArrowRight", times=3)
            broken.append(page.ask(VIOLATED))
        return broken, page.ask(TIMES)

    page.again()
    before = page.ask(TIMES)
    broken, times = compared(suite, page, "shift a train by 3, mend what breaks", by_mouse, by_keys)
    later = {str(event): (before[str(event)] + 3) % 60 for event in range(21, 41)}
    suite.note("first a turn is violated, then nothing", {"they": [1, 0], "times": {**before, **later}}, {"they": broken, "times": times})


def moved_and_mended(page: Hands, steps: Steps, move: Callable[[], None], mend: Callable[[], None], take: Callable[[], None]) -> Tuple[Any, Any]:
    """A train is moved, and what breaks is mended where anything does: what is violated then, and all times."""
    move()
    if page.ask(VIOLATED):
        mend()
        page.until(PROPOSED, seconds=60)
        take()
    return page.ask(VIOLATED), page.ask(TIMES)


@within(1800)
def each_shifted(suite: Suite, page: Hands) -> None:
    """Trains of three regions run 3 minutes later, and violations are mended: in as many steps as documented, or fewer. Every
    third train is tried; with PESPBENCH_EACH_TRAIN in the environment each is, which takes some minutes."""
    most, trains = told()["move any train by 3, mend it"], 0
    for seed in (1, 2, 3):
        page.again()
        page.show(texts_of(draw_region(seed)))
        before = page.ask(TIMES)
        for events in page.ask("Page.view.trains.map(train => train.events)"):
            first, trains = events[0], trains + 1
            if trains % 3 != 1 and "PESPBENCH_EACH_TRAIN" not in os.environ:
                continue
            by_mouse, by_keys = Steps(page), Steps(page)

            def drag() -> None:
                by_mouse.drag(f'[data-way="{first}"]', 3, 60)

            def typed() -> None:
                by_keys.seek(page.ask(f"Page.eventName({first}).replace(/ leaves .*/, '')"))
                by_keys.key("ArrowRight", times=3)

            made = [moved_and_mended(page, by_mouse, drag, lambda: by_mouse.click("#mend"), lambda: by_mouse.click("#take-proposed"))]
            page.ask("Page.goTo(0)")
            page.frame()
            if trains % 6 == 1:
                made.append(moved_and_mended(page, by_keys, typed, lambda: by_keys.press("m"), lambda: by_keys.press("\n")))
                page.ask("Page.goTo(0)")
                page.frame()
            moved = {str(event): (before[str(event)] + 3) % 60 for event in events}
            for violated, times in made:
                came = {"violated": violated, "moved": {event: times[event] for event in moved}}
                suite.note(f"region {seed}, train of {first}", {"violated": 0, "moved": moved}, came)
            suite.holds(f"region {seed}, train of {first}: {by_mouse.count} steps by mouse, {by_keys.count} by keys", by_mouse.count <= most[0] and by_keys.count <= most[1])
    suite.holds(f"{trains} trains", trains >= 30)


def better_minute(suite: Suite, page: Hands) -> None:
    """A departure gets a better minute: the prices are drawn, and a click on the best takes it over with its timetable."""
    best = "parseInt(document.querySelector('#prices .curve .best').style.left) * 60 / 100 | 0"

    def prepared() -> None:
        page.again()
        page.ask("Page.step([`fix 21 ${Page.view.times.get(21)}`])")
        page.frame()

    def made() -> object:
        return page.lines()[1], page.ask("String(Page.view.cost)"), page.ask(VIOLATED)

    def by_mouse(steps: Steps) -> object:
        prepared()
        steps.click('[data-row="31"] .name')
        steps.click("#ask-prices")
        page.until(WHOLE, seconds=60)
        left, top, width, height = page.box(CURVE)
        steps.count += 1
        page.click(left + width * (page.ask(best) + 0.5) / 60, top + height / 2)
        page.frame()
        return made()

    def by_keys(steps: Steps) -> object:
        prepared()
        steps.seek("31")
        for wanted in ("ask-prices", "curve"):
            for _ in range(30):
                if wanted in page.ask("[document.activeElement.id, document.activeElement.className].join()"):
                    break
                steps.key("Tab")
            if wanted == "ask-prices":
                steps.press(" ")
                page.until(WHOLE, seconds=60)
        minute, at = page.ask(best), "Number(document.querySelector('#prices .curve').getAttribute('aria-valuenow'))"
        while page.ask(at) != minute:
            far = minute - page.ask(at)
            steps.key(("PageUp" if far > 0 else "PageDown") if abs(far) > 5 else "ArrowRight" if far > 0 else "ArrowLeft")
            page.frame()
        steps.press("\n")
        return made()

    line, cost, violated = compared(suite, page, "find a better minute for this departure", by_mouse, by_keys)
    came = {"line": str(line).rsplit(" ", 1)[0], "violated": violated, "cost": int(str(cost)) < 18_504}
    suite.note("it is better", {"line": "fix 31", "violated": 0, "cost": True}, came)
    page.again()


def held_and_best(suite: Suite, page: Hands) -> None:
    """A neighbour's train leaves at a fixed minute, and the best timetable with it is adopted, in which a train arrives sooner."""
    late = TRAINS["times"].replace("4; 32", "4; 33")

    def best() -> None:
        page.until("!Page.find('adopt').hidden && Page.find('stop').hidden")

    def made() -> object:
        return page.lines()[0], page.ask("String(Page.view.cost)"), page.ask(VIOLATED)

    def by_mouse(steps: Steps) -> object:
        begun(page, times=late)
        steps.count += 1
        page.drag([page.minute(5, 40), page.minute(5, 15)])
        steps.click("#optimum")
        best()
        steps.click("#adopt")
        return made()

    def by_keys(steps: Steps) -> object:
        begun(page, times=late)
        steps.seek("B to Dale leaves Benton")
        steps.key("ArrowRight")
        steps.back("optimum")
        steps.press("\n")
        best()
        steps.press("\n")
        return made()

    line, cost, violated = compared(suite, page, "hold a departure, find the best", by_mouse, by_keys)
    suite.note("the best beside it", {"line": "fix 5 15", "cost": "5", "violated": 0}, {"line": line, "cost": cost, "violated": violated})


def why_mended(suite: Suite, page: Hands) -> None:
    """The page explains why there is no timetable, and its first repair is made; then there is one."""

    def asked(steps: Steps, ask: Callable[[], None], mend: Callable[[], None]) -> object:
        page.ask("Page.openStory(Page.stories[1])")
        page.frame()
        ask()
        page.until("Page.find('stop').hidden && document.querySelector('#reasons .mend')")
        mend()
        page.frame()
        return page.lines(), page.ask("Page.isInfeasible(Page.view)")

    def by_mouse(steps: Steps) -> object:
        return asked(steps, lambda: steps.click("#ask-why"), lambda: steps.click("#reasons .mend"))

    def by_keys(steps: Steps) -> object:
        def ask() -> None:
            steps.back("ask-why")
            steps.press("\n")

        return asked(steps, ask, lambda: steps.press("\n"))

    lines, is_infeasible = compared(suite, page, "learn why none exists, mend it", by_mouse, by_keys)
    page.press("optimum")
    page.until(DONE)
    suite.holds("then there is one", len(lines) == 1 and not is_infeasible and "no timetable is better" in page.text("#found"))


def connected(suite: Suite, page: Hands) -> None:
    """Passengers get a connection between two chosen trains."""

    def by_mouse(steps: Steps) -> object:
        steps.click('[data-row="4"] .name')
        steps.click("#add-from")
        steps.click('[data-row="93"] .name')
        for name, text in [("kind", "change"), ("least", "3"), ("most", "8")]:
            steps.click(f"#added-{name}")
            steps.word(text)
        steps.click("#add-it")
        return page.lines(), page.ask("Page.labels.kinds.get(146)")

    def by_keys(steps: Steps) -> object:
        for event in (4, 93):
            steps.seek(str(event))
            steps.press("+")
        for text in ("change", "3", "8"):
            steps.word(text)
            if text == "8":
                steps.press("\n")
            else:
                steps.key("Tab")
        return page.lines(), page.ask("Page.labels.kinds.get(146)")

    lines, kind = compared(suite, page, "add a connection", by_mouse, by_keys)
    suite.note("it is there", {"lines": ["add activity 146 4 93 3 8 1"], "kind": "change"}, {"lines": lines, "kind": kind})


def handed_over(suite: Suite, page: Hands) -> None:
    """The timetable shown is handed over as a link that opens elsewhere, and on paper."""

    def over(act: Callable[[], None], leave: Callable[[], None], paper: Callable[[], None]) -> object:
        page.ask("Page.step(['time 1 7']); window.print = () => { window.isPrinted = true; }")
        act()
        page.until("Page.find('link-told').textContent !== ''")
        link = page.ask("Page.find('link-text').value")
        leave()
        paper()
        return link, page.is_shown("saving")

    def by_mouse(steps: Steps) -> object:
        def act() -> None:
            steps.click("#save")
            steps.click("#copy-link")

        came = over(act, lambda: steps.click("#saving-close"), lambda: steps.click("#print"))
        suite.holds("the button prints", page.ask("window.isPrinted === true"))
        return came

    def by_keys(steps: Steps) -> object:
        def act() -> None:
            steps.key("s", CTRL)
            for _ in range(9):
                if page.ask("document.activeElement.id") == "copy-link":
                    break
                steps.key("Tab")
            steps.press("\n")

        # The browser itself prints by Ctrl+P, if the page leaves it that key.
        page.ask("addEventListener('keydown', event => { window.isLeft = event.key === 'p' && !event.defaultPrevented; })")
        came = over(act, lambda: steps.key("Escape"), lambda: steps.key("p", CTRL))
        suite.holds("the browser has its key", page.ask("window.isLeft === true"))
        return came

    link, _ = compared(suite, page, "hand over by link and paper", by_mouse, by_keys)
    paper = base64.b64decode(page.call("Page.printToPDF", printBackground=True, preferCSSPageSize=True)["data"])
    suite.holds("it is printed", paper.startswith(b"%PDF") and len(paper) > 10_000)
    page.ask("Page.openStory(Page.stories[1])")
    page.press("open")
    page.press("opening-link")
    page.call("Input.insertText", text=link)
    page.type("\n")
    page.until("Page.view.network.events.length === 112")
    suite.note("elsewhere", {"time": 7}, {"time": page.ask("Page.view.times.get(1)")})


def both_ways(suite: Suite, page: Hands) -> None:
    """A train runs earlier in one variant; both are kept and compared, and the cheaper one is taken over."""
    drawn = "[...document.querySelectorAll('#view-compare .beside .sum td')].map(each => each.textContent)"

    def told() -> object:
        return page.ask(drawn), len(page.ask("[...document.querySelectorAll('#view-compare ul li')].map(each => each.textContent)"))

    def by_mouse(steps: Steps) -> object:
        steps.click("#keep-A")
        steps.drag('[data-way="21"]', 3, 60)
        steps.click("#keep-B")
        both = told()
        steps.click("#take-A")
        return both, page.ask(TIMES)

    def by_keys(steps: Steps) -> object:
        steps.key("A", SHIFT)
        steps.seek("R2 to Hatton")
        steps.key("ArrowRight", times=3)
        steps.key("B", SHIFT)
        both = told()
        steps.key("Tab")
        steps.press("\n")
        return both, page.ask(TIMES)

    page.again()
    before = page.ask(TIMES)
    both, times = compared(suite, page, "compare two variants", by_mouse, by_keys)
    suite.note("both are told", {"both": (["18,504", "18,528", "+24"], 10)}, {"both": both})
    suite.note("A is taken over", {"times": before}, {"times": times})
    page.key("z", 90, CTRL)
    suite.note("and given back", {"time": (before["21"] + 3) % 60}, {"time": page.ask("Page.view.times.get(21)")})


GROUPS = [shifted, each_shifted, better_minute, held_and_best, why_mended, connected, both_ways, handed_over]
