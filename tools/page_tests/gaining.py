"""What would help: the best timetable with one more minute at each activity, listed as it arrives, stopped, and taken over."""

import json
from typing import Any, List, Sequence

from page_tests.hands import TWO_TRAINS, Hands
from page_tests.keys import CTRL
from page_tests.searching import long_search
from tests.harness import Suite, within

DONE = "Page.find('stop').hidden"
ROWS = "[...document.querySelectorAll('#gains [data-gain]')].map(row => [Number(row.dataset.gain), row.querySelector('.saved').textContent])"
# Two trains that have to meet at both ends: each of the changes costs, and one more minute of one or of a turn lets them meet
# better.
TURNS = {
    "activities": "1; 1; 2; 10; 10; 1\n2; 2; 3; 3; 5; 4\n3; 3; 4; 10; 10; 1\n4; 4; 1; 4; 6; 2\n5; 2; 1; 3; 30; 9\n",
    "labels": "event; line; to; station; kind\n1; M; B; A; departure\n2; M; B; B; arrival\n3; M; A; B; departure\n4; M; A; A; arrival\n"
    "activity; kind\n1; run\n2; turn\n3; run\n4; turn\n5; change\n",
    "period": "30\n",
}


def choose(page: Hands, kinds: Sequence[str], way: str = "more") -> None:
    """Ticks only some kinds, and chooses their change."""
    page.press("tab-gains")
    page.ask(f"""document.querySelectorAll('#allowed-kinds input').forEach(box => {{ box.checked = {json.dumps(kinds)}.includes(box.value); }});
        Page.find('gain-way').value = '{way}'""")


def best(page: Hands, lines: Sequence[str] = ()) -> int:
    """The cost of the best timetable with some additional lines, which exists."""
    reply = page.ask(f"(() => {{ const {{ base, lines }} = Page.present(); return Page.run(base, [...lines, ...{json.dumps(list(lines))}, 'optimum']).pop()[0]; }})()")
    words = reply.split()
    assert words[0] == "optimum"
    return int(words[1])


def spans(page: Hands) -> Any:
    return page.ask("[...Page.view.network.activities.values()].map(({ number, lower, upper, weight }) => [number, lower, upper, weight])")


def wanted(page: Hands, numbers: Sequence[int], way: str) -> List[List[Any]]:
    """What each activity saves, the most first, by a run for each."""
    before = best(page)
    found: List[List[Any]] = []
    for number, lower, upper, weight in spans(page):
        if number in numbers:
            line = f"span {number} {lower} {upper + 1}" if way == "more" else f"span {number} {lower - 1} {upper}"
            after = best(page, [line])
            saved = before - after + (weight if way == "less" else 0)
            found += [[number, f"{saved:,}"]] if saved > 0 else []
    return sorted(found, key=lambda row: (-int(row[1].replace(",", "")), row[0]))


@within(240)
def gains_asked(suite: Suite, page: Hands) -> None:
    """Each activity of the ticked kinds is tried, and listed by what it saves; the others are not."""
    page.again()
    ticked = page.ask("[...document.querySelectorAll('#allowed-kinds input:checked')].map(box => box.value)")
    suite.note("runs, dwells and headways are not ticked at first", {"kinds": ["change", "turnaround"]}, {"kinds": ticked})
    for kind, way in [("turnaround", "more"), ("turnaround", "less"), ("dwell", "less")]:
        choose(page, [kind], way)
        numbers = page.ask(f"[...Page.view.network.activities.keys()].filter(number => Page.kindOf(number) === '{kind}')")[:12]
        page.press("ask-gains")
        page.until(DONE, seconds=200)
        came = page.ask(ROWS)
        if kind == "turnaround":
            suite.note(f"{kind}, {way}", {"rows": wanted(page, numbers, way)}, {"rows": came})
        sums = [int(saved.split(", or")[0].replace(",", "")) for _, saved in came]
        suite.holds(f"{kind}, {way}: the most first", sums == sorted(sums, reverse=True))
    choose(page, [])
    page.press("ask-gains")
    suite.note("none is ticked", {"said": "No activity of these kinds has least or most minutes that rule anything out."}, {"said": page.said()})


def gains_taken(suite: Suite, page: Hands) -> None:
    """One is taken over with its best timetable, by a click or by keys, in one step; the list returns after Undo."""
    page.again()
    page.show(TURNS)
    for hands in ("mouse", "keys"):
        choose(page, ["turn", "change"])
        if hands == "mouse":
            page.press("ask-gains")
        else:
            page.ask("Page.find('tab-gains').focus()")
            while page.ask("document.activeElement.id") != "ask-gains":
                page.key("Tab", 9)
            page.type("\n")
        page.until(DONE)
        rows = page.ask(ROWS)
        suite.holds(f"{hands}: some save", len(rows) > 0)
        number, saved = rows[0]
        before = best(page)
        if hands == "mouse":
            page.click(*page.middle("#gains .mend"))
        else:
            page.key("Tab", 9)
            while not page.ask("document.activeElement.matches('.mend')"):
                page.key("Tab", 9)
            page.type("\n")
        page.frame()
        came = page.ask("[Page.session.place, String(Page.view.cost), Page.countViolated(Page.view)]")
        suite.note(f"{hands}: {number} is taken over", {"it": [1, str(before - int(saved)), 0]}, {"it": came})
        suite.holds(f"{hands}: its title", "one minute more, and the best timetable with it" in page.said())
        suite.holds(f"{hands}: the list was of the state before", page.ask(ROWS) == [])
        page.key("z", 90, CTRL)
        suite.note(f"{hands}: undone", {"rows": rows}, {"rows": page.ask(ROWS)})


def gains_watched(suite: Suite, page: Hands) -> None:
    """The list grows during the search, is stopped at once, and stays; a step ends the search too."""
    page.again()
    choose(page, ["change", "dwell", "headway", "run", "turnaround"])
    page.press("ask-gains")
    counts = "Number(document.querySelector('#gains-progress')?.textContent.split(' ')[0] || 0)"
    page.until(f"{counts} > 1")
    first = page.ask(counts)
    page.until(f"{counts} > {first}")
    suite.holds("it is told that it goes on", "asking on" in page.text("#gains-progress") and page.is_shown("stop"))
    took = page.ask("(() => { const began = performance.now(); Page.find('stop').click(); return performance.now() - began; })()")
    suite.holds(f"stopped in {took:.0f} ms", took < 1_000 and not page.is_shown("stop"))
    suite.holds("what came stays", "— stopped" in page.text("#gains-progress") and page.ask(counts) > 0)
    suite.note("it is said", {"said": "stopped; what was found is listed"}, {"said": page.said()})
    page.press("ask-gains")
    page.until(f"{counts} > 0")
    page.ask("Page.step(['fix 1 5'])")
    suite.holds("a step ends it", not page.is_shown("stop") and "asking what would help has ended with it" in page.said())
    page.show(long_search())
    choose(page, ["activity"])
    page.press("ask-gains")
    page.until("!Page.find('stop').hidden")
    page.ask("Page.showRow(3)")
    page.press("stop")
    suite.holds("a network that takes long leaves the page usable", page.ask("Page.chosen") == 3 and not page.is_shown("stop"))


def gains_without_any(suite: Suite, page: Hands) -> None:
    """If there is no timetable, the changes that give one are listed."""
    page.again()
    page.show({**TWO_TRAINS, "times": "", "activities": "1; 1; 2; 3; 4; 2\n2; 2; 1; 4; 5; 1\n"})
    choose(page, ["run", "activity"])
    page.press("ask-gains")
    page.until(DONE)
    came: List[List[str]] = page.ask(ROWS)
    suite.note("each helps", {"rows": [[2, "then there is a timetable, of cost 4"], [1, "then there is a timetable, of cost 5"]]}, {"rows": sorted(came, key=lambda row: row[1])})
    suite.holds("as it is there is none", "As it is, no timetable meets everything." in page.text("#gains"))


GROUPS = [gains_asked, gains_taken, gains_watched, gains_without_any]
