"""Words: the legend, help on numbers, hours, and no word that a planner would not use."""

import re

from page_tests.corridor import texts_of
from page_tests.fingers import tap, touch
from page_tests.hands import Hands
from tests.harness import Suite

TABS = ("diagram", "corridor", "netgraph", "station", "tables", "compare", "violated", "lines", "why", "gains")
# Words of the program and of its commands, which no planner uses.
FOREIGN = re.compile(r"\b(domains?|nodes?|residues?|tensions?|dump|journal|(?:lines?) of commands|more lines|narrowed|cases?|drawn|adopt\w*|spans?)\b", re.I)
# All visible, announced or hovering texts.
TEXTS = """[document.body.innerText, ...[...document.querySelectorAll('[title], [aria-label], [placeholder], [aria-valuetext]')].flatMap(each =>
    ['title', 'aria-label', 'placeholder', 'aria-valuetext'].map(name => each.getAttribute(name) || ''))].join('\\n')"""


def legend(suite: Suite, page: Hands) -> None:
    """At the bottom each mark is shown with its name, on a wide screen and on a small one."""
    page.again()
    for width, height in [(1360, 850), (390, 800)]:
        page.resize(width, height)
        names = page.ask("[...document.querySelectorAll('#legend li')].map(each => each.textContent)")
        suite.note(f"{width} points", {"they": ["possible", "held", "time", "slack", "headway", "not met"]}, {"they": names})
        places = page.ask("[...document.querySelectorAll('#legend svg, #events')].map(each => each.getBoundingClientRect().top)")
        suite.holds("they stand below the events", min(places[1:]) > places[0])
    page.resize(1440, 900)


def help_on_numbers(suite: Suite, page: Hands) -> None:
    """Each number has help, opened by a mouse, keys and a finger, and closed by Escape."""
    page.again()
    near = """[...document.querySelectorAll('#size, .figure, #nodes, #chosen-minutes, h3')].filter(each => !each.closest('#rows, dialog')
        && !each.closest('.with-help, p, form, h3, label').parentElement.querySelector('[data-help]')).map(each => each.id || each.textContent)"""
    suite.note("numbers", {"without help": []}, {"without help": page.ask(near)})
    shown = "document.querySelector('#helping').matches(':popover-open') ? document.querySelector('#helping b').textContent : ''"
    for name, title in [
        ("size", "The network"), ("cost", "Cost"), ("violated", "Violated"), ("limited", "Limited"), ("attempts", "Attempts"),
        ("minutes", "Minutes"), ("activity", "Activities"),
    ]:
        page.click(*page.middle(f"[data-help={name}]"))
        page.frame()
        left, top, width, height = page.box("#helping")
        suite.note(f"{name}: a click", {"title": title}, {"title": page.ask(shown)})
        suite.holds(f"{name}: it is on the screen", left >= 0 and top >= 0 and left + width <= 1440 and top + height <= 900)
        page.key("Escape", 27)
        suite.note(f"{name}: Escape", {"title": ""}, {"title": page.ask(shown)})
    page.ask("document.querySelector('[data-help=cost]').focus()")
    page.type("\n")
    suite.note("Enter", {"title": "Cost"}, {"title": page.ask(shown)})
    page.key("Escape", 27)
    page.resize(390, 800)
    touch(page)
    tap(page, page.middle("[data-help=limited]"))
    left, _, width, _ = page.box("#helping")
    is_seen = left >= 0 and left + width <= 390
    suite.note("a tap", {"title": "Limited", "is seen": True}, {"title": page.ask(shown), "is seen": is_seen})
    touch(page, is_on=False)
    page.key("Escape", 27)
    page.resize(1440, 900)
    suite.note("nothing was done by it", {"lines": [], "tab": "diagram"}, {"lines": page.lines(), "tab": page.ask("Page.tab")})


def planners_words(suite: Suite, page: Hands) -> None:
    """No text has a word of the program that a planner would not use."""
    page.again()
    for story in range(3):
        page.ask(f"Page.openStory(Page.stories[{story}]); document.querySelectorAll('details').forEach(each => {{ each.open = true; }})")
        page.ask("Page.find('keep-A').click(); Page.step(['fix 1 4', 'fix 2 25'])")
        for name in ("try", "ask-why"):
            page.press(name)
            page.until("Page.find('stop').hidden")
        for tab in TABS:
            page.ask(f"Page.showTab('{tab}')")
            came = sorted(set(map(str.lower, FOREIGN.findall(page.ask(TEXTS)))))
            suite.note(f"story {story}, {tab}", {"words": []}, {"words": came})
    views = page.ask("[...document.querySelectorAll('[role=tab]')].map(each => each.textContent)")
    suite.note("views", {"they": ["Diagram", "Netgraph", "Corridor", "Station", "Tables", "Compare", "Violated", "Steps", "Why", "What helps"]}, {"they": views})
    page.ask("Page.showTab('tables')")
    for button, dialog in [("open", "opening"), ("save", "saving"), ("add-line", "lining")]:
        page.press(button)
        suite.note(dialog, {"words": []}, {"words": FOREIGN.findall(page.ask(TEXTS))})
        page.press(f"{dialog}-close")
    page.press("add-from")
    page.ask("Page.choose(9)")
    suite.note("adding", {"words": []}, {"words": FOREIGN.findall(page.ask(TEXTS))})
    helps = page.ask(
        """[...document.querySelectorAll('[data-help]')].map(each => {
        each.click();
        return Page.find('helping').textContent;
    }).join()"""
    )
    page.ask("Page.find('helping').hidePopover()")
    suite.note("help", {"words": []}, {"words": FOREIGN.findall(helps)})


def hours(suite: Suite, page: Hands) -> None:
    """Above a period of an hour minutes are written as h:mm, and so are durations of an hour or more."""
    for period, clock, length, late, taken in [
        (60, ":59", "59", 59, "59 minutes"), (90, "1:29", "1:29", 89, "1:29 h"), (1440, "23:59", "23:59", 100, "1:40 h")
    ]:
        page.show({"activities": f"1; 1; 2; 45; {period - 1}; 2\n", "times": f"1; 0\n2; {period - 1}\n", "period": f"{period}\n"})
        page.ask("Page.showRow(2)")
        came = {"time": page.row(2, "time"), "field": page.ask("Page.find('time-at').value"), "told": page.text(".told").split(",")[0]}
        takes = f"✓ takes {length} {'minutes' if period == 60 else 'h'}"
        suite.note(f"period {period}", {"time": clock, "field": clock.lstrip(":"), "told": takes}, came)
        ends = page.ask("[...document.querySelectorAll('.card .fields input')].map(each => each.value)")
        suite.note(f"period {period}: the span", {"it": ["45", length, "2"]}, {"it": ends})
        size = page.text("#size").split("period ")[1]
        suite.note(f"period {period}: itself", {"it": {60: "60", 90: "1:30", 1440: "24:00"}[period]}, {"it": size})
        page.ask(f"Page.step(['span 1 45 46', 'time 2 {late}'])")
        page.press("tab-violated")
        told = page.text("#view-violated")
        suite.holds(f"period {period}: {told}", f"takes {taken}, may take 45 to 46" in told)
        page.press("tab-diagram")
    page.ask("Page.step(['window 1 1400 90', 'span 1 60 1439'])")
    page.click(*page.minute(1, 1))
    page.frame()
    came = {"note": page.row(1, "note"), "long": page.ask("Page.find('hold-length').value") + page.text("#hold-unit")}
    wanted = {"note": "from 23:20 to 0:49", "long": "1:30h"}
    suite.note("a window of an hour and a half", wanted, came)
    page.click(*page.middle(".card .fields input"))
    page.key("ArrowUp", 38)
    came = {"value": page.ask("document.activeElement.value"), "line": page.lines()[-1]}
    suite.note("an arrow in a field", {"value": "1:01", "line": "span 1 61 1439"}, came)
    round_trip = "1; 1; 2; 70; 80; 1\n2; 2; 3; 100; 130; 1\n3; 3; 1; 100; 200; 1\n"
    page.show({"activities": round_trip, "period": "1440\n"})
    page.press("ask-why")
    page.until("Page.find('stop').hidden")
    told = page.text("#reasons")
    for words in ("they take 4:30 to 6:50 h, and have to take 0 or 24:00:", "17:10 h more", "1:10 to 18:30 h in place of 1:10 to 1:20"):
        suite.holds(words, words in told)
    page.show(texts_of([("N", "C", [("A", 1380), ("B", 20), ("B", 30), ("C", 400)])], [], 1440))
    for tab in ("diagram", "corridor", "netgraph", "tables"):
        page.ask(f"Page.showTab('{tab}'); Page.chooseCorridor(['A', 'C'])")
        texts = page.ask(f"[...document.querySelectorAll('#view-{tab} text, #view-{tab} td')].map(each => each.textContent)")
        bare = [text for text in texts if re.fullmatch("[(:]*[0-9]+[)]*", text)]
        suite.note(f"a night train, {tab}", {"minutes without hours": []}, {"minutes without hours": bare})
    page.ask("Page.showTab('diagram')")


GROUPS = [legend, help_on_numbers, planners_words, hours]
