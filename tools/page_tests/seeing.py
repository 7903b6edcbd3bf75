"""The moves of a timetable are drawn before it is accepted: of one that was found, also from the list, and of a variant."""

from typing import Dict, List

from page_tests.always import VIOLATED, times
from page_tests.hands import Hands
from page_tests.keys import CTRL
from page_tests.searching import DONE
from tests.harness import Suite

SEEN = "!Page.find('proposed').hidden"
GHOSTS = "[...document.querySelectorAll('.strip .old')].map(each => Number(each.parentNode.dataset.event))"
OLD_NUMBERS = """Object.fromEntries([...document.querySelectorAll('#netgraph tspan.old')].map(each =>
    [each.parentNode.dataset.event, Number(each.textContent)]))"""
DASHED = """document.querySelectorAll('#diagram path[stroke="var(--pale)"]').length"""
LISTED = "[...document.querySelectorAll('#offered li')].map(each => each.firstChild.textContent + each.childNodes[1].data)"


def drawn_over(suite: Suite, page: Hands, what: str, before: Dict[int, int]) -> None:
    """Old places of moving events are on the strips and in the netgraph, and old paths in the diagram."""
    now = times(page)
    moved = sorted(event for event in now if now[event] != before[event])
    suite.note(f"{what}: strips", {"old": moved}, {"old": sorted(page.ask(GHOSTS))})
    suite.holds(f"{what}: diagram", page.ask(DASHED) > 0)
    page.press("tab-netgraph")
    numbers = {int(event): minute for event, minute in page.ask(OLD_NUMBERS).items()}
    suite.note(f"{what}: netgraph", {"old": {event: before[event] for event in moved}}, {"old": numbers})
    page.press("tab-diagram")


def found_seen(suite: Suite, page: Hands) -> None:
    """The moves of adopting are drawn, with the number of trains and minutes, and nothing is done until it is accepted."""
    page.again()
    page.press("optimum")
    page.until(f"{DONE} && !Page.find('adopt').hidden")
    before = times(page)
    page.press("see")
    page.until(SEEN)
    came = {"told": page.text("#proposed-told"), "steps": page.lines(), "keys": page.ask("document.activeElement.id")}
    suite.note("told", {"told": "12 trains move, by at most 30 minutes; cost 5,263 less", "steps": [], "keys": "take-proposed"}, came)
    drawn_over(suite, page, "found", before)
    page.press("leave-proposed")
    page.press("tab-netgraph")
    came = {"times": times(page), "old": page.ask(GHOSTS), "numbers": page.ask(OLD_NUMBERS), "adopt": page.is_shown("adopt")}
    suite.note("left", {"times": before, "old": [], "numbers": {}, "adopt": True}, came)
    page.press("see")
    seen = times(page)
    page.press("take-proposed")
    came = {"times": times(page), "steps": page.ask("Page.session.steps.length"), "cost": page.text("#figure-cost b"), "said": page.said()}
    suite.note("taken", {"times": seen, "steps": 1, "cost": "13,241", "said": "taken over: 12 trains move, by at most 30 minutes; cost 5,263 less"}, came)
    page.key("z", 90, CTRL)
    page.frame()
    suite.note("undone", {"times": before}, {"times": times(page)})


def found_listed(suite: Suite, page: Hands) -> None:
    """Timetables that were found are listed with cost and moves, also of a mend; each is seen and accepted by a click."""
    page.again()
    page.ask("Page.moveTrain(21, 3)")
    page.frame()
    page.press("mend")
    page.until(SEEN)
    page.press("leave-proposed")
    page.press("optimum")
    page.until(f"{DONE} && !Page.find('adopt').hidden")
    page.click(*page.middle("#offers summary"))
    page.until("document.querySelectorAll('#offered li').length > 1")
    listed: List[str] = page.ask(LISTED)
    costs = [int(each.split(" ")[0].replace(",", "")) for each in listed]
    suite.holds(f"listed: {listed}", costs == sorted(costs) and costs[0] == 13_241 and all("by at most" in each for each in listed))
    suite.holds("the nearest is there", any(each.endswith(" R2 to Cranley moves, by at most 2 minutes ") for each in listed))
    place = next(place for place, each in enumerate(listed, 1) if "R2 to Cranley moves" in each)
    before = times(page)
    page.click(*page.middle(f"#offered li:nth-child({place}) button"))
    page.until(SEEN)
    page.frame()
    suite.note("seen", {"violated": 0, "steps": 1}, {"violated": page.ask(VIOLATED), "steps": page.ask("Page.session.steps.length")})
    drawn_over(suite, page, "listed", before)
    page.press("leave-proposed")
    page.click(*page.middle("#offered li:nth-child(1) button"))
    page.until(SEEN)
    page.press("take-proposed")
    came = {"cost": page.text("#figure-cost b"), "steps": page.ask("Page.session.steps.length"), "first": page.ask(LISTED)[0]}
    suite.note("taken", {"cost": "13,241", "steps": 2, "first": "13,241 it is shown"}, came)
    page.ask("Page.step([...Page.view.times].map(([event, time]) => `time ${event} ${(time + 7) % 60}`))")
    page.frame()
    suite.note("turned as a whole it is the same", {"first": "13,241 it is shown"}, {"first": page.ask(LISTED)[0]})
    page.ask("Page.step(['fix 1 0'])")
    page.frame()
    suite.holds("of another network none", not page.is_shown("offers"))
    page.key("z", 90, CTRL)
    page.frame()
    suite.holds("after undo", page.is_shown("offers"))


def variant_seen(suite: Suite, page: Hands) -> None:
    """The moves of taking a variant over are drawn above the present state; one of another network has no such button."""
    page.again()
    kept = times(page)
    page.press("keep-A")
    page.ask("Page.moveTrain(21, 3)")
    page.press("tab-compare")
    before = times(page)
    page.press("see-A")
    page.until(SEEN)
    page.frame()
    came = {"times": times(page), "told": page.text("#proposed-told"), "tab": page.ask("Page.tab"), "steps": page.ask("Page.session.steps.length")}
    told = "R2 to Hatton moves, by at most 3 minutes; cost 24 less"
    suite.note("seen", {"times": kept, "told": told, "tab": "diagram", "steps": 1}, came)
    page.ask("Page.choose(21)")
    page.frame()
    drawn_over(suite, page, "variant", before)
    page.press("take-proposed")
    suite.note("taken", {"said": f"A is taken over: {told}", "times": kept}, {"said": page.said(), "times": times(page)})
    page.press("tab-compare")
    suite.holds("it is what is shown", not page.is_shown("see-A"))
    page.ask("Page.step(['drop activity 1'])")
    page.frame()
    suite.holds("another network", page.is_shown("take-A") and not page.is_shown("see-A"))
    page.again()


GROUPS = [found_seen, found_listed, variant_seen]
