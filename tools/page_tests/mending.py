"""Violations are mended by the nearest timetable, which is shown above the present one, and is accepted or rejected."""

import itertools
import random
from typing import Dict, List, Tuple

from page_tests.fingers import swipe, tap, touch
from page_tests.hands import TWO_TRAINS, Hands
from page_tests.keys import CTRL
from page_tests.moving import piece
from tests.harness import Suite, within

PROPOSED = "!Page.find('proposed').hidden"
VIOLATED = "Page.countViolated(Page.view)"
TIMES = "Object.fromEntries(Page.view.times)"
# Those of some things by their ids that are not seen whole on the screen, or lie below something else.
UNSEEN = """NAMES.filter(name => {
    const node = Page.find(name), lines = [...node.getClientRects()];
    return !lines.length || !lines.every(({ left, right, top, bottom }) => left >= 0 && top >= 0 && right < innerWidth + 1 && bottom < innerHeight + 1
        && [left + 2, right - 2].every(x => node.contains(document.elementFromPoint(x, (top + bottom) / 2))));
})"""


def moved(page: Hands, minutes: float = 3, train: int = 21) -> None:
    """The region with a train that was dragged by some minutes."""
    page.again()
    x, y = page.middle(f'[data-way="{train}"]')
    minute = page.box(f'[data-way="{train}"]')[2] / 60
    page.drag([(x, y), (x + minutes * minute / 2, y), (x + minutes * minute, y)])


def mended(suite: Suite, page: Hands) -> None:
    """A train is moved; the nearest timetable is proposed above the present one, in trains and minutes, and accepted by a click."""
    moved(page)
    before = page.ask(TIMES)
    suite.note("violated", {"count": 1, "mend": True}, {"count": page.ask(VIOLATED), "mend": page.is_shown("mend")})
    page.press("mend")
    page.until(PROPOSED)
    wanted = {"told": "R2 to Cranley moves, by at most 2 minutes; cost 3 less", "violated": "0", "lines": 10, "keys": "take-proposed"}
    came = {"told": page.text("#proposed-told"), "violated": page.text("#figure-violations b"), "lines": len(page.lines()), "keys": page.ask("document.activeElement.id")}
    suite.note("proposed", wanted, came)
    ghosts = page.ask("[...document.querySelectorAll('.strip .old')].map(each => Number(each.parentNode.dataset.event))")
    changed = [int(event) for event, time in page.ask(TIMES).items() if before[event] != time]
    suite.note("where they were", {"old": sorted(changed)}, {"old": sorted(ghosts)})
    page.ask("Page.choose(31)")
    page.frame()
    dashed = "document.querySelectorAll('#diagram path[stroke=\"var(--pale)\"]').length"
    suite.holds(f"old ways: {page.ask(dashed)}", page.ask(dashed) >= 2)
    after = page.ask(TIMES)
    page.press("take-proposed")
    came = {"times": page.ask(TIMES), "said": page.said(), "steps": page.ask("Page.session.steps.length"), "old": page.ask("document.querySelectorAll('.strip .old').length")}
    suite.note("taken", {"times": after, "said": f"mended: {wanted['told']}", "steps": 2, "old": 0}, came)
    suite.note("what was moved stays", {"they": [before[str(event)] for event in range(21, 31)]}, {"they": [after[str(event)] for event in range(21, 31)]})
    page.key("z", 90, CTRL)
    page.frame()
    suite.note("undone", {"times": before, "mend": True}, {"times": page.ask(TIMES), "mend": page.is_shown("mend")})


def mended_by_keys(suite: Suite, page: Hands) -> None:
    """M mends, Enter accepts; the list of violations mends too, and a rejected proposal changes nothing."""
    moved(page)
    before = page.state()
    page.key("m", 77)
    page.until(PROPOSED)
    page.type("\n")
    page.frame()
    suite.note("by keys", {"violated": 0, "steps": 2}, {"violated": page.ask(VIOLATED), "steps": page.ask("Page.session.steps.length")})
    moved(page)
    page.press("tab-violated")
    page.click(*page.middle("#view-violated .main"))
    page.until(PROPOSED)
    page.press("leave-proposed")
    came = {"same": page.state() == before, "said": page.said(), "mend": page.is_shown("mend"), "proposed": page.is_shown("proposed")}
    suite.note("left", {"same": True, "said": "The proposal is left, and nothing has changed.", "mend": True, "proposed": False}, came)
    page.press("mend")
    page.until(PROPOSED)
    page.drag([page.minute(1, 20), page.minute(1, 30)])
    came = {"lines": page.lines()[-1], "steps": page.ask("Page.session.steps.length"), "proposed": page.is_shown("proposed")}
    suite.note("a drag in its place", {"lines": "fix 1 30", "steps": 2, "proposed": False}, came)
    page.again()
    page.key("m", 77)
    page.frame()
    suite.note("nothing to mend", {"said": "Nothing is violated, so there is nothing to mend."}, {"said": page.said()})


Rows = List[Tuple[int, int, int, int, int, int]]


def least_moves(rows: Rows, times: Dict[int, int], held: int, period: int) -> Tuple[int, int]:
    """The fewest minutes to a timetable that meets everything, and its least cost, by enumeration; (-1, -1) if there is none."""
    others, best = [event for event in times if event != held], (-1, -1)
    for minutes in itertools.product(range(period), repeat=len(others)):
        at = {held: times[held], **dict(zip(others, minutes))}
        slacks = [((at[last] - at[first] - lower) % period, upper - lower, weight) for _, first, last, lower, upper, weight in rows]
        if all(slack <= most for slack, most, _ in slacks):
            moves = sum(min((at[event] - times[event]) % period, (times[event] - at[event]) % period) for event in others)
            found = (moves, sum(slack * weight for slack, _, weight in slacks))
            best = found if best[0] < 0 else min(best, found)
    return best


@within(120)
def nearest_of_all(suite: Suite, page: Hands) -> None:
    """In small networks no timetable is nearer, and of equally near ones none is cheaper, by enumeration."""
    draw, period, none, tried = random.Random(83), 12, 0, 0
    for _ in range(24):
        count = draw.choice([3, 4])
        rows: Rows = []
        for number in range(1, count + 2):
            first, last = draw.sample(range(1, count + 1), 2)
            lower = draw.randrange(period)
            rows.append((number, first, last, lower, lower + draw.randrange(2, 8), draw.randrange(4)))
        named = sorted({event for row in rows for event in row[1:3]})
        times = {event: draw.randrange(period) for event in named}
        page.show({"activities": "".join("; ".join(map(str, row)) + "\n" for row in rows), "times": "".join(f"{event}; {time}\n" for event, time in times.items()), "period": f"{period}\n"})
        held = named[0]
        times[held] = (times[held] + 1) % period
        page.ask(f"Page.step(['time {held} {times[held]}'])")
        page.frame()
        if not page.ask(VIOLATED):
            continue
        page.press("mend")
        page.until(PROPOSED)
        after = {int(event): time for event, time in page.ask(TIMES).items()}
        came = (sum(min((after[event] - times[event]) % period, (times[event] - after[event]) % period) for event in after), page.ask("Number(Page.view.cost)"))
        wanted = least_moves(rows, times, held, period)
        if wanted[0] < 0:
            none += 1
            suite.holds(f"none: {page.text('#proposed-told')}", page.text("#proposed-told").startswith("No timetable meets everything"))
        else:
            tried += 1
            suite.note(f"{rows}", {"moves and cost": wanted}, {"moves and cost": came})
        page.ask("Page.refresh()")
    suite.holds(f"{none} have none, and {tried} have one", tried > 8)


def not_mended(suite: Suite, page: Hands) -> None:
    """If there is none within the permitted moves, the page says so, and asks why with the moved events held."""
    moved(page, 12)
    page.ask("Page.find('most-moved').focus()")
    page.type("2")
    page.press("mend")
    page.until(PROPOSED)
    told = "No timetable meets everything with what was moved, and what is to stay, where it is and others moved by at most 2 minutes."
    suite.note("not by so little", {"told": told, "take": False}, {"told": page.text("#proposed-told"), "take": page.is_shown("take-proposed")})
    page.show(TWO_TRAINS)
    page.ask("Page.step(['fix 1 0']); Page.step(['time 2 8'])")
    page.frame()
    page.press("mend")
    page.until(PROPOSED)
    suite.holds(f"none at all: {page.text('#proposed-told')}", page.text("#proposed-told").startswith("No timetable meets everything"))
    page.press("why-not")
    page.until("document.querySelector('#reasons table')")
    came = {"tab": page.ask("Page.tab"), "members": "arrives at Benton" in page.text("#reasons"), "lines": page.lines()}
    suite.note("why, with what is held", {"tab": "why", "members": True, "lines": ["fix 1 0", "time 2 8"]}, came)
    page.show(TWO_TRAINS)
    page.ask("Page.step(['fix 2 4']); Page.step(['time 2 6'])")
    page.frame()
    page.press("mend")
    page.until(PROPOSED)
    told = "M to Benton arrives at Benton was moved away from where it is held: let it go first, or undo."
    suite.note("away from where it is held", {"told": told}, {"told": page.text("#proposed-told")})


def trains_that_stay(suite: Suite, page: Hands) -> None:
    """A train that must stay is not moved to mend another one."""
    moved(page)
    page.ask("Page.showRow(31)")
    page.frame()
    page.press("train-stays")
    page.ask("Page.undo()")
    page.frame()
    suite.note("marked", {"bar": "stays"}, {"bar": page.text('[data-way="31"] ~ .note')})
    page.ask("Page.redo()")
    page.frame()
    before = page.ask(TIMES)
    page.press("mend")
    page.until(PROPOSED)
    told, after = page.text("#proposed-told"), page.ask(TIMES)
    suite.holds(f"told: {told}", "R2 to Cranley" not in told)
    suite.note("it stays", {"they": [before[str(event)] for event in range(31, 41)]}, {"they": [after[str(event)] for event in range(31, 41)]})
    page.again()


def mended_on_any_screen(suite: Suite, page: Hands) -> None:
    """On a phone a finger moves and mends, and on the whole screen a mouse does; what it presses, and what is proposed, is seen whole."""
    for name, width, height in [("a phone", 390, 800), ("a small screen", 800, 1000), ("the whole screen", 1360, 850)]:
        page.again()
        page.resize(width, height)
        press = page.press
        if width < 1000:
            touch(page)
            x, y = page.middle('[data-way="21"]')
            swipe(page, [(x + minutes * page.box('[data-way="21"]')[2] / 60, y) for minutes in range(4)])
            press = lambda name: tap(page, page.middle(f"#{name}"))  # noqa: E731
        else:
            page.ask("Page.choose(21)")
            page.press("large")
            x, y, minute = piece(page, 21)
            page.drag([(x, y), (x + 2 * minute, y), (x + 3 * minute, y)])
        suite.note(f"{name}: violated", {"count": 1, "unseen": []}, {"count": page.ask(VIOLATED), "unseen": page.ask(UNSEEN.replace("NAMES", "['mend']"))})
        press("mend")
        page.until(PROPOSED)
        page.frame()
        told = page.text("#proposed-told")
        wanted = {"told": "R2 to Cranley moves, by at most 2 minutes; cost 3 less", "unseen": []}
        suite.note(f"{name}: proposed", wanted, {"told": told, "unseen": page.ask(UNSEEN.replace("NAMES", "['proposed-told', 'take-proposed', 'leave-proposed']"))})
        press("take-proposed")
        page.frame()
        suite.note(f"{name}: taken", {"violated": 0, "steps": 2}, {"violated": page.ask(VIOLATED), "steps": page.ask("Page.session.steps.length")})
        if width < 1000:
            touch(page, is_on=False)
        page.resize(1440, 900)
    page.again()


GROUPS = [mended, mended_by_keys, mended_on_any_screen, nearest_of_all, not_mended, trains_that_stay]
