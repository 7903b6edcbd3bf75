"""At 2,048 events the page answers at once, reports what it knows meanwhile, and no more than that."""

import re
from typing import Any, Dict, List

from page_tests import large
from page_tests.gaining import DONE
from page_tests.hands import TWO_TRAINS, Hands
from tests.harness import Suite, within

MET = "The timetable shown meets everything, so there is no conflict."
# The numbers of the netgraph by their events, and the same from the times shown.
NUMBERS = "Object.fromEntries([...document.querySelectorAll('#netgraph tspan')].map(each => [each.dataset.event, each.textContent]))"
TIMES = "Object.fromEntries([...Page.view.times].map(([event, time]) => [event, String(time).padStart(2, '0')]))"
# The bounds that a search reports.
BOUNDS = """window.bounds = [];
new MutationObserver(() => {
    const [, bound] = /none can be below ([0-9,]+)/.exec(Page.find('found').textContent) || [];
    if (bound) window.bounds.push(Number(bound.replace(/,/g, '')));
}).observe(Page.find('found'), { childList: true, characterData: true, subtree: true })"""


def numbers_of(text: str) -> List[int]:
    """The numbers in a text."""
    return [int(each.replace(",", "")) for each in re.findall(r"[0-9][0-9,]*", text)]


@within(400)
def why_of_many(suite: Suite, page: Hands) -> None:
    """If a shown or found timetable meets everything, that is the answer to why at once; the violations of one lead to the
    conflict."""
    page.again()
    page.show(large.texts())
    page.press("ask-why")
    suite.note("one that is shown", {"told": MET, "stop": False}, {"told": page.text("#reasons"), "stop": page.is_shown("stop")})
    page.show({**TWO_TRAINS, "times": ""})
    page.press("optimum")
    page.until(DONE)
    page.press("ask-why")
    wanted = {"told": "A timetable meets everything, so there is no conflict.", "stop": False}
    suite.note("one that was found", wanted, {"told": page.text("#reasons"), "stop": page.is_shown("stop")})
    page.show(large.texts(unmet=large.REGIONS))
    suite.holds("a span of the last region is moved", page.text("#figure-violations b") != "0")
    page.press("ask-why")
    page.until(DONE, seconds=300)
    suite.holds(page.text("#reasons")[:80], "cannot be met together" in page.text("#reasons"))


@within(400)
def bound_of_many(suite: Suite, page: Hands) -> None:
    """A search reports a bound, which rises; for independent regions it is the sum of their optima at the end."""
    page.again()
    page.show(large.texts())
    page.ask(BOUNDS)
    page.press("optimum")
    page.until("new Set(bounds).size > 3", seconds=300)
    page.press("stop")
    bounds, cost = page.ask("bounds"), numbers_of(page.text("#found"))[0]
    suite.holds(f"{bounds} are below {cost}, and ascend", 0 < bounds[0] < bounds[-1] <= cost and bounds == sorted(bounds))
    page.show(large.texts(2))
    bound, optimum = page.ask("""(() => {
        const { goOn, close } = Page.boundingOf(Page.view.network);
        let bound = 0;
        for (let told = goOn({}); told; told = goOn({})) ({ bound } = told);
        close();
        const { base, lines } = Page.present();
        return [bound, Number(Page.run(base, [...lines, 'optimum']).pop()[0].split(' ')[1])];
    })()""")
    suite.note("two regions, to the end", {"bound": optimum}, {"bound": bound})
    page.again()


def gain_words(page: Hands) -> Dict[str, Any]:
    """The text above the list of what would help."""
    return {"told": page.ask("[...document.querySelectorAll('#gains > p')].map(each => each.textContent).join(' ')")}


@within(400)
def help_of_many(suite: Suite, page: Hands) -> None:
    """What would help starts with the timetable shown, shows its progress, and keeps its results when it is stopped."""
    page.again()
    page.show(large.texts())
    cost = page.text("#figure-cost b")
    page.press("tab-gains")
    page.ask("window.told = []; new MutationObserver(() => told.push(document.querySelector('#gains').textContent)).observe(Page.find('gains'), { childList: true })")
    page.press("ask-gains")
    first = page.ask("told[0]")
    suite.holds(first, first.startswith(f"As it is, the timetable shown costs {cost}; perhaps not the best.0 of ") and "looking for a better one first" in first)
    page.until("/^[1-9][0-9]* of/.test(document.querySelector('#gains-progress').textContent)", seconds=300)
    suite.holds("it goes on", "asking on" in page.text("#gains-progress"))
    page.press("stop")
    told = gain_words(page)["told"]
    best, count = numbers_of(told)[:2]
    suite.holds(told, "— stopped" in told and count > 0 and best <= int(cost.replace(",", "")))
    sums = page.ask("[...document.querySelectorAll('#gains .saved')].map(each => each.textContent)")
    suite.holds("no sum is sure where the best is not", all(each.endswith((", perhaps", ", or less")) for each in sums))


@within(120)
def mend_of_many(suite: Suite, page: Hands) -> None:
    """A train is moved in a network of 2,048 events, and mended as soon as in its part alone, where all others stay."""
    page.show(large.texts())
    first = page.ask("Page.view.trains[8].events[0]")
    before = page.ask("Object.fromEntries(Page.view.times)")
    x, y = page.middle(f'[data-way="{first}"]')
    minute = page.box(f'[data-way="{first}"]')[2] / 60
    page.drag([(x, y), (x + 2 * minute, y), (x + 3 * minute, y)])
    broken = page.ask("Page.countViolated(Page.view)")
    suite.holds(f"{broken} are violated", broken > 0)
    page.press("mend")
    page.until("!Page.find('proposed').hidden", 25)
    after = page.ask("Object.fromEntries(Page.view.times)")
    came = {"violated": page.ask("Page.countViolated(Page.view)"), "stay": [event for event in before if int(event) > 112 and before[event] != after[event]]}
    suite.note(f"mended: {page.text('#proposed-told')}", {"violated": 0, "stay": []}, came)
    suite.holds("it is the nearest", "perhaps" not in page.text("#proposed-told"))
    page.press("take-proposed")
    page.again()


def better_as_it_is(suite: Suite, page: Hands) -> None:
    """A timetable that was found with one more minute, and does not need it, is one of the unchanged network."""
    page.show(TWO_TRAINS)
    for name, after, paid, times, wanted in [
        ("more, not needed", [3, 6], 0, [0, 5], ["stopped", 9]), ("more, needed", [3, 6], 0, [0, 6], ["none", None]),
        ("less, not needed", [2, 5], 2, [8, 1], ["stopped", 7]), ("less, needed", [2, 5], 2, [0, 2], ["none", None]),
    ]:
        came = page.ask(f"""(() => {{
            const question = {{ number: 1, after: {{ lower: {after[0]}, upper: {after[1]} }}, paid: {paid} }};
            const {{ kind, cost = null }} = Page.asItIs(Page.view.network, question, {{ times: new Map([[1, {times[0]}], [2, {times[1]}]]), cost: 9 }});
            return [kind, cost];
        }})()""")
        suite.note(name, {"it": wanted}, {"it": came})


@within(400)
def netgraph_of_many(suite: Suite, page: Hands) -> None:
    """A large netgraph leaves the page usable while it is drawn, has only its visible part, and follows scrolling."""
    page.again()
    page.show(large.texts())
    page.ask("window.busy = []; window.addEventListener('click', () => busy.push(Page.find('netgraph').getAttribute('aria-busy')), true)")
    page.click(*page.middle("#tab-netgraph"))
    page.click(*page.middle('[data-row="3"]'))
    page.frame()
    suite.note("a click is heard meanwhile", {"busy": "true", "chosen": 3}, {"busy": page.ask("busy[1]"), "chosen": page.ask("Page.chosen")})
    page.drawn()
    times, before = page.ask(TIMES), page.ask(NUMBERS)
    suite.holds(f"{len(before)} numbers are drawn, that of the chosen event too", "3" in before and len(before) < len(times))
    suite.note("they are those shown", {event: times[event] for event in before}, before)
    suite.note("all stations are there for the keys", {"stations": 285}, {"stations": page.ask("document.querySelectorAll('#netgraph [data-station]').length")})
    page.ask("Page.step(['time 3 41'])")
    suite.note("a step", {"it": "41"}, {"it": page.ask("document.querySelector('#netgraph tspan[data-event=\"3\"]').textContent")})
    red = "document.querySelector('#netgraph text.broken[data-activity]') !== null"
    suite.holds("what it violates is red", page.ask(red))
    x, y = page.middle("#netgraph")
    for _ in range(3):
        page.call("Input.dispatchMouseEvent", type="mouseWheel", x=x, y=y, deltaX=0, deltaY=-400)
        page.frame()
    page.drawn()
    near = page.ask(NUMBERS)
    suite.holds(f"zoomed, {len(near)} are drawn", 0 < len(near) < len(before))
    page.ask(
        """(() => {
        const panel = Page.find('netgraph'), { station } = Page.labelOf(1000), drawn = [...panel.querySelectorAll('[data-station]')].find(each => each.dataset.station === station);
        const [at, of] = [drawn, panel].map(each => each.getBoundingClientRect());
        panel.scrollBy(at.left - of.left - of.width / 2, at.top - of.top - of.height / 2);
    })()"""
    )
    page.frame()
    page.drawn()
    after = page.ask(NUMBERS)
    suite.holds("others are drawn, and some are not any more", "1000" in set(after) - set(near) and bool(set(near) - set(after)))
    suite.note("they are those shown, too", {event: page.ask(TIMES)[event] for event in after}, after)
    page.ask("Page.showRow(1); Page.showRow(3); Page.showTab('diagram'); Page.showTab('netgraph')")
    whole = page.ask("[...Page.netgraphOf(Page.view).drawn.querySelectorAll('tspan')].length")
    suite.note("on paper there are all", {"numbers": len(times)}, {"numbers": whole})


GROUPS = [why_of_many, bound_of_many, help_of_many, mend_of_many, better_as_it_is, netgraph_of_many]
