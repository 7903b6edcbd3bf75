"""The price of each minute of an event and each length of an activity: computed in the background, shown, and applied by a click."""

from typing import Any, Dict, List

from page_tests.fingers import tap, touch
from page_tests.hands import TWO_TRAINS, Hands
from page_tests.keys import CODES, CTRL
from page_tests.strangers import LONG
from tests.harness import Suite, within

CURVE, SUMMARY, AT = "#prices .curve", "#prices .priced p", "#prices .priced p:last-child"
WHOLE = "!Page.find('prices').classList.contains('busy') && /^(Best|Each|No)/.test(document.querySelector('#prices .priced p').textContent)"
# The least costs by whole runs of the program, of an event at each of some minutes.
COSTS_OF_RUNS = """(() => {
    const { base, lines } = Page.present();
    return MINUTES.map(minute => Page.run(base, [...lines, `fix EVENT ${minute}`, 'optimum']).pop()[0].split(' ')[1] || 'none');
})()"""


def asked(page: Hands, lines: List[str], event: int) -> None:
    """The two trains after some lines, with what each minute of an event costs."""
    page.again()
    page.show(TWO_TRAINS)
    page.ask(f"Page.step({lines}); Page.showRow({event})")
    page.frame()
    page.press("ask-prices")
    page.until(WHOLE)


def looked(page: Hands, minute: float, period: int = 10) -> str:
    """The text on a minute below a pointer that is not pressed."""
    left, top, width, height = page.box(CURVE)
    page.call("Input.dispatchMouseEvent", type="mouseMoved", x=left + width * (minute + 0.5) / period, y=top + height / 2)
    page.frame()
    page.frame()
    return page.text(AT)


def priced(suite: Suite, page: Hands) -> None:
    """Each minute has its price, the best is named, and a click on one fixes the event there and takes its timetable over."""
    asked(page, ["fix 1 0"], 2)
    suite.note("all of them", {"told": "Best: :04, cost 4. No timetable: :00–:03, :06–:09."}, {"told": page.text(SUMMARY)})
    for minute, told in [(4, "at :04 the best is as good as any: cost 4"), (5, "at :05 the best costs 1 more"), (7, "at :07 there is no timetable")]:
        suite.note(told, {"told": told}, {"told": looked(page, minute)})
    came = {"shades": page.ask("document.querySelectorAll('.strip.priced').length"), "best": page.ask(f"document.querySelector('{CURVE} .best').style.left")}
    suite.note("drawn", {"shades": 1, "best": "45%"}, came)
    left, top, width, height = page.box(CURVE)
    page.click(left + width * 0.75, top + height / 2)
    suite.note("a minute without any", {"lines": ["fix 1 0"], "said": "at :07 there is no timetable"}, {"lines": page.lines(), "said": page.said()})
    page.click(left + width * 0.55, top + height / 2)
    page.frame()
    came = {"lines": page.lines(), "said": page.said(), "cost": page.text("#figure-cost b")}
    wanted = {"lines": ["fix 1 0", "fix 2 5", "time 2 5"], "said": "M to Benton arrives at Benton: held at :05: cost 2 more; nothing is violated", "cost": "5"}
    suite.note("taken", wanted, came)
    suite.note("and still known", {"told": "Best: :04, cost 4. No timetable: :00–:03, :06–:09."}, {"told": page.text(SUMMARY)})
    page.key("z", 90, CTRL)
    page.frame()
    suite.note("undone", {"lines": ["fix 1 0"]}, {"lines": page.lines()})


def priced_by_keys(suite: Suite, page: Hands) -> None:
    """Arrow keys go through the minutes, each of which is announced, and Enter applies one; a tap of a finger does too."""
    asked(page, ["fix 1 0"], 2)
    page.ask(f"document.querySelector('{CURVE}').focus()")
    told = []
    for _ in range(2):
        page.key("ArrowRight", CODES["ArrowRight"])
        page.frame()
        page.frame()
        told.append(page.ask(f"document.querySelector('{CURVE}').getAttribute('aria-valuetext')"))
    suite.note("by keys", {"told": ["at :04 the best is as good as any: cost 4", "at :05 the best costs 1 more"]}, {"told": told})
    page.type("\n")
    came = {"lines": page.lines(), "keys": page.ask("document.activeElement.className")}
    suite.note("Enter", {"lines": ["fix 1 0", "fix 2 5", "time 2 5"], "keys": "curve"}, came)
    touch(page)
    page.ask("Page.undo()")
    page.frame()
    left, top, width, height = page.box(CURVE)
    tap(page, (left + width * 0.45, top + height / 2))
    suite.note("a tap", {"lines": ["fix 1 0", "fix 2 4", "time 2 4"]}, {"lines": page.lines()})
    touch(page, False)


def priced_lengths(suite: Suite, page: Hands) -> None:
    """Each length of an activity has its price, and a click takes over a timetable with that length."""
    page.again()
    page.show(TWO_TRAINS)
    page.ask("Page.step(['fix 1 0']); Page.showRow(2)")
    page.frame()
    page.click(*page.middle('[data-activity="1"] [data-price]'))
    card = '[data-activity="1"] .priced'
    page.until(f"/^Best/.test(document.querySelector('{card} p').textContent) && !/known/.test(document.querySelector('{card} p').textContent)")
    suite.note("all of them", {"told": "Best: 4 minutes, cost 4. No timetable: 3 minutes."}, {"told": page.text(f"{card} p")})
    page.click(*page.unit(1, 5)[:1], page.middle(f"{card} .curve")[1])
    page.frame()
    came = {"lines": page.lines(), "told": page.text('[data-activity="1"] .told')}
    suite.note("taken", {"lines": ["fix 1 0", "time 2 5"], "told": "✓ takes 5 minutes, slack 2, costs 4"}, came)


@within(120)
def priced_as_told(suite: Suite, page: Hands) -> None:
    """In a region the prices are those of whole runs, also of a train; if nothing is held, they are equal, and the page says so."""
    page.again()
    page.press("ask-prices")
    page.until(WHOLE)
    suite.holds(f"nothing is held: {page.text(SUMMARY)}", page.text(SUMMARY).startswith("Each minute is as good as any: nothing else is held"))
    page.ask("Page.step(['fix 21 26'])")
    page.until(f"{WHOLE} && /^Best/.test(document.querySelector('{SUMMARY}').textContent) && !document.querySelector('{SUMMARY}').textContent.includes('known')")
    minutes = list(range(60))
    wanted: Dict[str, Any] = {"costs": page.ask(COSTS_OF_RUNS.replace("MINUTES", str(minutes)).replace("EVENT", "1"))}
    told = [looked(page, minute, 60) for minute in minutes]
    best = int(page.text(SUMMARY).split("cost ")[1].split(".")[0].replace(",", ""))
    costs = ["none" if "no timetable" in text else str(best + int(text.split("costs ")[1].split(" more")[0].replace(",", "")) if "more" in text else best) for text in told]
    suite.note("as whole runs", wanted, {"costs": costs})
    page.press("prices-of-train")
    page.until("document.querySelectorAll('.strip.priced').length > 2")
    page.press("ask-prices")
    page.frame()
    page.frame()
    came = {"shades": page.ask("document.querySelectorAll('.strip.priced').length"), "picture": page.ask("!document.querySelector('#prices .priced')")}
    suite.note("no more", {"shades": 0, "picture": True}, came)


def priced_beside(suite: Suite, page: Hands) -> None:
    """During the computation the page is usable, and a step restarts it."""
    page.again()
    page.show({"activities": "", "lines": LONG, "period": "60"})
    page.press("ask-prices")
    page.until("Page.find('prices').classList.contains('busy')")
    page.drag([page.minute(3, 10), page.minute(3, 20)])
    suite.note("a step", {"lines": ["fix 3 20"]}, {"lines": page.lines()})
    suite.holds("nothing is to be stopped", not page.is_shown("stop"))
    page.press("optimum")
    suite.holds("a search beside it", page.is_shown("stop"))
    page.press("stop")
    page.show(TWO_TRAINS)
    page.ask("Page.step(['fix 1 0']); Page.showRow(2)")
    page.until(WHOLE)
    suite.note("another network", {"told": "Best: :04, cost 4. No timetable: :00–:03, :06–:09."}, {"told": page.text(SUMMARY)})
    page.again()


GROUPS = [priced, priced_by_keys, priced_lengths, priced_as_told, priced_beside]
