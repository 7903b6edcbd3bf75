"""Always the best: with a tick, the page shows after each step how far its timetable is above the best, and the rest follows a
hand."""

from typing import Dict, List, Tuple

from page_tests.hands import TWO_TRAINS, Hands
from page_tests.keys import CODES, CTRL
from page_tests.mending import UNSEEN
from tests.harness import Suite, within

KNOWN = "Page.find('above').textContent !== '' && !Page.find('above').textContent.includes('looked for')"
THERE = "Page.find('above').textContent.includes('with it there')"
VIOLATED = "Page.countViolated(Page.view)"
COST = "Number(Page.view.cost)"
FOLLOWED = "Page.session.steps.length && Page.session.steps[Page.session.steps.length - 1].title.endsWith('and the rest follows')"
# The least cost after some lines, by a whole run of the program.
BEST = """(() => {
    const { base, lines } = Page.present();
    return Number(Page.run(base, [...lines, ...MORE, 'optimum']).pop()[0].split(' ')[1]);
})()"""
# Counts drawn frames for three seconds.
PICTURES = """new Promise(done => {
    const times = [], count = at => {
        times.push(at);
        if (at - times[0] < 3000) return requestAnimationFrame(count);
        return done([(times.length - 1) * 1000 / (at - times[0]), Math.max(...times.slice(1).map((each, place) => each - times[place]))]);
    };
    requestAnimationFrame(count);
})"""


def ticked(page: Hands, way: str = "best") -> None:
    """The region, with event 1 fixed at its time, so that not all of it can be shifted together; a click sets the tick."""
    page.again()
    page.ask(f"Page.find('rest').value = '{way}'; Page.step([`fix 1 ${{Page.view.times.get(1)}}`])")
    page.frame()
    page.press("always")
    page.until(KNOWN)


def way_of(page: Hands, train: int) -> Tuple[float, float, float]:
    """The middle of a train's bar, and the pixels of a minute there."""
    x, y = page.middle(f'[data-way="{train}"]')
    return x, y, page.box(f'[data-way="{train}"]')[2] / 60


def times(page: Hands) -> Dict[int, int]:
    return {int(event): time for event, time in page.ask("Object.fromEntries(Page.view.times)").items()}


def moved_lines(page: Hands, train: int, minutes: int) -> List[str]:
    """The lines that fix a train some minutes later than it is."""
    lines: List[str] = page.ask(
        f"Page.view.trains.find(train => train.events[0] === {train}).events.map(event => `fix ${{event}} ${{(Page.view.times.get(event) + {minutes}) % 60}}`)"
    )
    return lines


def above_told(suite: Suite, page: Hands) -> None:
    """After each step a search beside the hand reports how far the timetable shown is above the best; no button is disabled
    meanwhile."""
    ticked(page)
    best, shown = page.ask(BEST.replace("...MORE, ", "")), page.ask(COST)
    told = f"{shown - best:,} above the best, which costs {best:,}"
    came = {"above": page.text("#above"), "found": page.text("#found"), "adopt": page.is_shown("adopt")}
    suite.note("beside what is shown", {"above": told, "found": f"Cost {best:,}: no timetable is better.", "adopt": True}, came)
    x, y = page.minute(21, 40)
    page.ask("Page.find('rest').value = ''")
    page.drag([page.minute(21, 20), (x, y)])
    suite.holds("nothing is to be stopped", not page.is_shown("stop") and not page.ask("Page.find('optimum').disabled"))
    page.until(f"{KNOWN} && Page.find('above').textContent !== {told!r}")
    best = page.ask(BEST.replace("...MORE, ", ""))
    suite.note("after a step", {"above": f"the best costs {best:,}"}, {"above": page.text("#above")})
    page.press("adopt")
    suite.note("adopted", {"above": "the best"}, {"above": page.text("#above")})
    page.press("always")
    suite.note("without the tick", {"above": "", "choice": False}, {"above": page.text("#above"), "choice": page.is_shown("rest")})
    page.show(TWO_TRAINS)
    page.ask("Page.step(['span 1 3 3'])")
    page.frame()
    page.press("always")
    page.until(KNOWN)
    suite.note("none", {"above": "✕ No timetable meets everything."}, {"above": page.text("#above")})
    page.again()


def seen_whole(suite: Suite, page: Hands) -> None:
    """On each screen what the tick says is seen whole, beside a timetable that was found, and heads are low; on a wide one they are a fifth."""
    for width, height, part in [(1920, 1080, 0.2), (1360, 850, 0.2), (800, 1000, 0.3), (390, 800, 0.33)]:
        page.again()
        page.resize(width, height)
        page.ask("Page.step(['fix 1 28'])")
        page.press("optimum")
        page.until("Page.find('stop').hidden && !Page.find('adopt').hidden")
        page.press("always")
        page.until(KNOWN)
        page.frame()
        top, unseen = page.box("main")[1], page.ask(UNSEEN.replace("NAMES", "['always', 'rest', 'above', 'adopt', 'see', 'offers']"))
        suite.note(f"{width} points", {"unseen": []}, {"unseen": unseen})
        suite.holds(f"{width} points: heads of {top:.0f} of {height}", top <= part * height)
        page.press("always")
        page.resize(1440, 900)


@within(120)
def rest_follows(suite: Suite, page: Hands) -> None:
    """While a train is dragged, all others are drawn at their times in the best timetable, with old paths; it is one step, which
    undo reverts."""
    ticked(page)
    before = times(page)
    wanted = page.ask(BEST.replace("MORE", str(moved_lines(page, 21, 3))))
    x, y, minute = way_of(page, 21)
    page.drag([(x, y), (x + 2 * minute, y), (x + 3 * minute, y)], is_released=False)
    page.until(f"{THERE} && Page.find('above').textContent.startsWith('the best')")
    page.frame()
    now = times(page)
    came = {"cost": page.ask(COST), "violated": page.ask(VIOLATED), "hand": [(now[event] - before[event]) % 60 for event in range(21, 31)]}
    suite.note("below the hand", {"cost": wanted, "violated": 0, "hand": [3] * 10}, came)
    moved = sorted(event for event in now if now[event] != before[event])
    suite.holds(f"{len(moved)} events are moved", len(moved) > 10 and now[1] == before[1])
    ghosts = page.ask("[...document.querySelectorAll('.strip .old')].map(each => Number(each.parentNode.dataset.event))")
    suite.note("old places", {"they": moved, "steps": 1}, {"they": sorted(ghosts), "steps": page.ask("Page.session.steps.length")})
    page.mouse("mouseReleased", x + 3 * minute, y)
    page.until(FOLLOWED)
    page.frame()
    came = {"times": times(page), "steps": page.ask("Page.session.steps.length"), "title": page.ask("Page.session.steps[1].title"), "old": page.ask("document.querySelectorAll('.strip .old').length")}
    suite.note("released", {"times": now, "steps": 2, "title": "R2 to Hatton 3 minutes later, and the rest follows", "old": 0}, came)
    page.key("z", 90, CTRL)
    page.frame()
    suite.note("undone", {"times": before}, {"times": times(page)})
    x, y = page.grip(31, "now")
    page.drag([(x, y), (x + 40, y), (x + 60, y)], is_released=False)
    page.key("Escape", 27)
    page.mouse("mouseReleased", x + 60, y)
    page.frame()
    suite.note("Escape", {"times": before, "steps": 1}, {"times": times(page), "steps": page.ask("Page.session.place")})
    page.again()


@within(120)
def rest_follows_later(suite: Suite, page: Hands) -> None:
    """After a quick drag, or a key on a bar, on a strip or on a span, the rest follows as part of that step as soon as it is known."""
    ticked(page)
    before = times(page)
    x, y, minute = way_of(page, 21)
    page.mouse("mousePressed", x, y)
    page.mouse("mouseMoved", x + 3 * minute, y)
    page.mouse("mouseReleased", x + 3 * minute, y)
    page.until(FOLLOWED)
    came = {"violated": page.ask(VIOLATED), "steps": page.ask("Page.session.steps.length"), "moved": [(times(page)[event] - before[event]) % 60 for event in range(21, 31)]}
    suite.note("a quick drag", {"violated": 0, "steps": 2, "moved": [3] * 10}, came)
    page.key("z", 90, CTRL)
    page.frame()
    suite.note("undone", {"times": before}, {"times": times(page)})
    page.ask("document.querySelector('[data-way=\"21\"]').focus()")
    for _ in range(3):
        page.key("ArrowRight", CODES["ArrowRight"])
    page.until(FOLLOWED)
    came = {"violated": page.ask(VIOLATED), "moved": [(times(page)[event] - before[event]) % 60 for event in range(21, 31)]}
    suite.note("three keys", {"violated": 0, "moved": [3] * 10}, came)
    page.ask("Page.goTo(1); Page.showRow(31)")
    page.frame()
    page.key("ArrowRight", CODES["ArrowRight"])
    page.until(FOLLOWED)
    wanted = page.ask(BEST.replace("...MORE, ", ""))
    suite.note("a key on a strip", {"cost": wanted, "violated": 0}, {"cost": page.ask(COST), "violated": page.ask(VIOLATED)})
    page.again()


def drag_train(page: Hands, event: int, words: str) -> Dict[int, int]:
    """The times after an event's train is dragged 3 minutes later: meanwhile the page shows these words, then the rest follows."""
    x, y, minute = way_of(page, event)
    page.drag([(x, y), (x + 2 * minute, y), (x + 3 * minute, y)], is_released=False)
    page.until(f"Page.find('above').textContent.startsWith('{words}')")
    page.mouse("mouseReleased", x + 3 * minute, y)
    page.until(FOLLOWED)
    return times(page)


@within(120)
def nearest_follows(suite: Suite, page: Hands) -> None:
    """The rest follows to the nearest timetable if that is chosen: events that still meet everything do not move."""
    ticked(page, "near")
    before = times(page)
    now = drag_train(page, 21, "the nearest with it there")
    moved = {event: min((now[event] - before[event]) % 60, (before[event] - now[event]) % 60) for event in now if now[event] != before[event]}
    others = {event: minutes for event, minutes in moved.items() if not 21 <= event <= 30}
    suite.note("met", {"violated": 0, "hand": 10}, {"violated": page.ask(VIOLATED), "hand": len(moved) - len(others)})
    suite.holds(f"others: {others}", 0 < len(others) <= 10 and set(others.values()) <= {1, 2} and all(31 <= event <= 40 for event in others))
    page.again()


@within(120)
def rest_with_nothing_held(suite: Suite, page: Hands) -> None:
    """If nothing else is held, the rest follows to the nearest timetable, not by a shift of all, and the page says so."""
    page.again()
    page.press("always")
    page.until(KNOWN)
    page.press("adopt")
    before = times(page)
    now = drag_train(page, 105, "the nearest with it there, as nothing else is held")
    moved = [event for event in now if now[event] != before[event]]
    suite.note("met", {"violated": 0, "hand": [3] * 8}, {"violated": page.ask(VIOLATED), "hand": [(now[event] - before[event]) % 60 for event in range(105, 113)]})
    suite.holds(f"{len(moved)} of {len(now)} events are moved", 8 < len(moved) < len(now) / 2)
    page.again()


def rest_stays(suite: Suite, page: Hands) -> None:
    """If no timetable has it there, the page says so, and only the hand's own step is made; if that is chosen, the rest stays."""
    page.again()
    page.show(TWO_TRAINS)
    page.ask("Page.step(['fix 1 0'])")
    page.frame()
    page.press("always")
    page.until(KNOWN)
    page.drag([page.grip(2, "now"), page.minute(2, 7), page.minute(2, 8)], is_released=False)
    page.until("Page.find('above').textContent.includes('no timetable has it there')")
    page.mouse("mouseReleased", *page.minute(2, 8))
    page.frame()
    suite.note("none", {"lines": ["fix 1 0", "time 2 8"], "why": True}, {"lines": page.lines(), "why": "the rest stays: no timetable has it there" in page.said()})
    page.ask("Page.undo(); Page.find('rest').focus()")
    page.type("s")
    page.drag([page.grip(2, "now"), page.minute(2, 5), page.minute(2, 6)])
    page.until(KNOWN)
    suite.note("it stays", {"lines": ["fix 1 0", "time 2 6"]}, {"lines": page.lines()})
    page.again()


def pictures(page: Hands, way: str) -> Tuple[float, float]:
    """How many frames a second are drawn while a train is dragged to and fro, and the longest time between two, in milliseconds."""
    page.ask(f"Page.find('rest').value = '{way}'")
    x, y, minute = way_of(page, 21)
    page.drag([(x, y), (x + minute, y)], is_released=False)
    page.ask(
        f"""window.moving = setInterval(() => {{
        const at = performance.now() / 150;
        dispatchEvent(new PointerEvent('pointermove', {{ clientX: {x} + {minute} * Math.round(6 * Math.sin(at / 4)), clientY: {y}, bubbles: true }}));
    }}, 30)"""
    )
    count, longest = page.ask(PICTURES)
    page.ask("clearInterval(window.moving)")
    page.key("Escape", 27)
    page.mouse("mouseReleased", x, y)
    page.frame()
    return count, longest


@within(120)
def pictures_go_on(suite: Suite, page: Hands) -> None:
    """While a train is dragged to and fro with the rest following, frames are drawn continuously: 12 a second, or a fifth of those
    without."""
    ticked(page)
    [alone, _], [count, longest] = pictures(page, ""), pictures(page, "best")
    print(f"  {count:.0f} pictures a second, at most {longest:.0f} ms from one to the next; {alone:.0f} a second where the rest stays")
    suite.holds(f"{count:.0f} pictures a second, and {alone:.0f} where the rest stays", count >= min(12, alone / 5))
    page.again()


GROUPS = [above_told, seen_whole, rest_follows, rest_follows_later, nearest_follows, rest_with_nothing_held, rest_stays, pictures_go_on]
