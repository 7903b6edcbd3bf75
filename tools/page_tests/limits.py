"""The page at the limits of the program, with existing files: each answer is quick, shown, and exact."""

import pathlib
import re
import tempfile
import time
import zipfile
from typing import Dict, List

from page_tests.hands import TWO_TRAINS, Hands
from page_tests.searching import DONE
from page_tests.untouched import placed
from tests.harness import Suite, patient, within

LONGEST = 67_108_864
# The greatest time to draw, on a machine on which other tests run too.
SECONDS = 60
OPENED = "Page.find('opening').open || Page.find('said').textContent.startsWith('opened')"
# The program's times, each as the tension of an activity from an event at 0, and those shown.
TIMES_TOLD = """(() => {
    const { base, lines } = Page.present(), { period, events } = Page.view.network, times = [];
    const ask = more => Page.run(base, [...lines, ...more]).pop();
    for (const event of events) {
        if (ask([`untime ${event}`])[0] !== 'ok') continue;
        const others = events.filter(each => each !== event).map(each => `time ${each} 0`);
        const tied = ['add event 99', 'time 99 0', `add activity 99 99 ${event} 0 ${period - 1} 0`, 'tensions'];
        times.push([event, Page.readTensions(ask([...others, ...tied])).get(99).tension]);
    }
    return [times, [...Page.view.times]];
})()"""


def at_the_limits(suite: Suite, page: Hands) -> None:
    """At period 1,440, with the greatest numbers of events and activities, times are opened, set, adopted and undone."""
    events, count = 1_666, 8_333
    rows = ((number, number % events + 1, (number + 1 + number // events) % events + 1) for number in range(count))
    texts = {
        "activities": "".join(f"{number}; {first}; {last}; 0; 1439; 1\n" for number, first, last in rows),
        "times": "".join(f"{event}; {event - 1_440}\n" for event in range(1, events + 1)),
        "period": "1440\n",
    }
    with tempfile.TemporaryDirectory() as folder:
        page.again()
        page.drop(*placed(folder, texts))
        page.until(OPENED)
    came = {"size": page.text("#size"), "time": page.row(1_441, "time"), "fault": page.text("#opening-fault")}
    suite.note("opened", {"size": "1666 events, 8333 activities, period 24:00", "time": "0:01", "fault": ""}, came)
    page.fill("#time-at", "6:15\n")
    suite.note("a time", {"lines": ["time 1 375"], "time": "6:15"}, {"lines": page.lines(), "time": page.row(1, "time")})
    page.press("try")
    page.until(DONE)
    page.press("adopt")
    adopted = {"lines": len(page.lines()), "violated": page.text("#figure-violations b")}
    suite.note("adopted", {"lines": 1 + events, "violated": "0"}, adopted)
    page.press("undo")
    suite.note("undone", {"time": "6:15"}, {"time": page.row(1, "time")})


def followed(suite: Suite, page: Hands) -> None:
    """The tracked times are the program's, as the tension from a clock at 0 shows."""
    page.again()
    page.show({**TWO_TRAINS, "events": "7\n8\n", "times": "event; time\n+1; -3\n2; 0017\n7; 25\n9; 3\n"})
    suite.note("a file of times", {"program": [[1, 7], [2, 7], [7, 5]]}, {"program": page.ask(TIMES_TOLD)[0]})
    for line in ["time  2\t+4", "drop\tevent 7", "add event 7", "untime 1", "fix 8 2", "time 8 02", "time 1 9"]:
        suite.holds(f"{line!r} is done", page.ask(f"Page.step([{line!r}])"))
        program, shown = page.ask(TIMES_TOLD)
        suite.note(f"after {line!r}", {"shown": program}, {"shown": shown})


@within(240)
def long_files(suite: Suite, page: Hands) -> None:
    """A file has as many bytes as the program reads, also in an archive; one more is reported, and no more is unpacked."""
    row, told = b"1; 1; 2; 3; 5; 2\n", f"activities file is too long: it has more than {LONGEST:,} bytes"
    with tempfile.TemporaryDirectory() as name:
        folder = pathlib.Path(name)
        (folder / "period").write_text("10")
        for size, wanted in [(LONGEST, ""), (LONGEST + 1, told)]:
            (folder / "activities").write_bytes(row + b"#" * (size - len(row)))
            page.again()
            page.drop(folder / "activities", folder / "period")
            page.until(OPENED)
            suite.note(f"{size:,} bytes", {"told": wanted}, page.opening())
            with zipfile.ZipFile(folder / "a.zip", "w", zipfile.ZIP_DEFLATED) as archive:
                archive.write(folder / "activities", "a/activities")
                archive.write(folder / "period", "a/period")
            page.again()
            page.drop(folder / "a.zip")
            page.until(OPENED)
            suite.note(f"{size:,} bytes in an archive", {"told": wanted}, page.opening())
        with zipfile.ZipFile(folder / "b.zip", "w", zipfile.ZIP_DEFLATED) as archive:
            archive.writestr("b/period", "10")
            for part in range(9):
                with archive.open(f"b/{part}", "w", force_zip64=True) as file:
                    for _ in range(LONGEST // (1 << 20)):
                        file.write(b" " * (1 << 20))
        page.again()
        page.drop(folder / "b.zip")
        page.until(OPENED)
        told = f"The files cannot be read: its files have more than {4 * LONGEST:,} bytes together."
        suite.note("many long files in one archive", {"told": told}, page.opening())


def lines_of(count: int, stations: int, is_shared: bool = False) -> Dict[str, str]:
    """A network with this many lines, each between stations of its own or all between the same, with labels and times."""
    events: List[str] = []
    activities: List[str] = []
    kinds: List[str] = []
    for line in range(count):
        names = [f"S{(0 if is_shared else line) * stations + place}" for place in range(stations)]
        for place, name in enumerate(names):
            for kind in ("arrival", "departure")[place == 0 : 1 + (place < stations - 1)]:
                events.append(f"{len(events) + 1}; L{line}; {names[-1]}; {name}; {kind}\n")
                if (place, kind) != (0, "departure"):
                    activities.append(f"{len(activities) + 1}; {len(events) - 1}; {len(events)}; 1; 5; 1\n")
                    kinds.append(f"{len(activities)}; {'run' if kind == 'arrival' else 'dwell'}\n")
    labels = "event; line; to; station; kind\n" + "".join(events) + "activity; kind\n" + "".join(kinds)
    times = "".join(f"{event}; {event * 2 % 60}\n" for event in range(1, len(events) + 1))
    return {"activities": "".join(activities), "labels": labels, "times": times, "period": "60\n"}


def drawn_in_time(suite: Suite, page: Hands, name: str, tab: str, wanted: str) -> None:
    """A view of the open network is drawn soon, with a remark on what is left out."""
    began = time.monotonic()
    page.press(f"tab-{tab}")
    page.drawn()
    told = page.ask(f"Page.find('view-{tab}').innerText")
    suite.holds(f"{name}, {tab}, in {time.monotonic() - began:.1f} s", time.monotonic() - began < patient(SECONDS))
    suite.holds(f"{name}, {tab}: {wanted}", wanted in told)


@within(300)
def elided(suite: Suite, page: Hands) -> None:
    """Networks that are too large to draw are drawn in part, soon, with a remark on that."""
    for lines, stations, tab, wanted in [
        (1, 349, "netgraph", ""),
        (50, 7, "netgraph", "Elided: of 350 stations the 120 nearest to S0 are shown."),
        (500, 8, "netgraph", "Elided: of 4,000 stations the 120 nearest to S0 are shown."),
        (1, 4_000, "netgraph", "Elided: of 4,000 stations the 120 nearest to S0 are shown."),
        (1, 4_000, "diagram", "Elided: of 4,000 stations the 120 about S0 are shown."),
    ]:
        with tempfile.TemporaryDirectory() as folder:
            page.again()
            page.drop(*placed(folder, lines_of(lines, stations)))
            page.until(OPENED)
        drawn_in_time(suite, page, f"{lines} lines of {stations} stations", tab, wanted)
        rings = page.ask("document.querySelectorAll('#netgraph .ring').length") if tab == "netgraph" else 120
        suite.note("stations", {"drawn": 120 if wanted else stations}, {"drawn": rings})
    page.ask("Page.showRow(4000)")
    suite.holds("the stations about another event", "about S2000 are shown" in page.text("#diagram-note"))
    with tempfile.TemporaryDirectory() as folder:
        page.again()
        many = "".join(f"{number}; 1; 2; 3; 5; 1000000000\n" for number in range(100_000))
        began = time.monotonic()
        page.drop(*placed(folder, {"activities": many, "times": "1; 0\n2; 2\n", "period": "60"}))
        page.until(OPENED)
        suite.holds(f"100,000 activities in {time.monotonic() - began:.1f} s", time.monotonic() - began < patient(SECONDS))
    wanted = "Elided: of 100,000 activities at this event the first 200 are shown."
    suite.holds(wanted, wanted in page.text("#activities"))
    wanted = "Elided: of 100,000 that are violated the first 500 are shown."
    drawn_in_time(suite, page, "all are violated", "violated", wanted)


@within(300)
def many_lines_drawn(suite: Suite, page: Hands) -> None:
    """A diagram and a corridor of 50 lines draw a part of their runs and stations, with a remark on that."""
    for stations, is_shared, tab, wanted in [
        (80, False, "diagram", ""),
        (190, True, "diagram", "Elided: of 9,261 runs of other lines the first 2,000 are shown."),
        (190, True, "corridor", "Elided: of 190 stations the 120 about S0 are shown."),
    ]:
        with tempfile.TemporaryDirectory() as folder:
            page.again()
            page.drop(*placed(folder, lines_of(50, stations, is_shared)))
            page.until(OPENED)
        page.ask("Page.chooseCorridor([...Page.view.lines[0].stations])")
        drawn_in_time(suite, page, f"50 lines of {stations} stations", tab, wanted)
        drawn = page.ask(f"document.querySelectorAll('#{tab} *').length")
        suite.holds(f"50 lines of {stations} stations, {tab}: {drawn:,} elements", 200 < drawn < 16_000)


def exact(suite: Suite, page: Hands) -> None:
    """A cost beyond the exact numbers of JavaScript is shown in all its digits."""
    weights = [1_000_000_000 - (number <= 3_750) for number in range(7_500)]
    many = "".join(
        f"{number}; {number % 50}; {50 + number // 50 % 50}; 0; 1439; {weight}\n"
        for number, weight in enumerate(weights)
    )
    times = "".join(f"{event}; {-(event // 50)}\n" for event in range(100))
    with tempfile.TemporaryDirectory() as folder:
        page.again()
        page.drop(*placed(folder, {"activities": many, "times": times, "period": "1440"}))
        page.until("Page.find('said').textContent.startsWith('opened')")
    cost = f"{1_439 * sum(weights):,}"
    page.ask("window.dispatchEvent(new Event('beforeprint'))")
    came = {"shown": page.text("#figure-cost b"), "printed": cost in page.text("#printed")}
    page.ask("window.dispatchEvent(new Event('afterprint'))")
    suite.note("a cost", {"shown": cost, "printed": True}, came)


# Everything drawn and shown, as markup.
MARKUP = "document.body.innerHTML.replace(/<script[^]*?<[/]script>/g, '')"
UNKNOWN = re.compile(r"NaN|Infinity|undefined|[0-9]e[+][0-9]")
FAR = [
    ("the greatest numbers", [("1e308", "1e308"), ("-1e308", "-1e308"), ("0", "1e308")]),
    ("far along one axis", [("1e308", "0"), ("-1e308", "1"), ("3", "2")]),
    ("the least numbers", [("5e-324", "0"), ("0", "5e-324"), ("0", "0")]),
    ("both", [("1.7e308", "5e-324"), ("-1.7e308", "0"), ("0", "1")]),
]


def far_places(suite: Suite, page: Hands) -> None:
    """Places beyond any map are drawn, on the screen and on paper, and saved unchanged."""
    texts = lines_of(1, 3)
    for name, places in FAR:
        rows = "".join(f"S{place}; {x}; {y}\n" for place, (x, y) in enumerate(places))
        page.again()
        page.show({**texts, "places": f"station; x; y\n{rows}"})
        page.press("tab-netgraph")
        suite.note(f"{name}: the netgraph", {"unknown": []}, {"unknown": UNKNOWN.findall(page.ask("Page.find('view-netgraph').innerHTML"))})
        rings = "new Set([...document.querySelectorAll('#netgraph .ring')].map(each => each.outerHTML)).size"
        suite.note(f"{name}: apart", {"rings": 3}, {"rings": page.ask(rings)})
        page.ask("window.dispatchEvent(new Event('beforeprint'))")
        suite.note(f"{name}: on paper", {"unknown": []}, {"unknown": UNKNOWN.findall(page.ask("Page.find('printed').innerHTML"))})
        page.ask("window.dispatchEvent(new Event('afterprint'))")
        saved = page.ask("[...Page.readPlaces(Page.filesToSave().places)]")
        suite.note(f"{name}: saved", {"places": [[f"S{place}", [float(x), float(y)]] for place, (x, y) in enumerate(places)]}, {"places": saved})
    page.again()


def great_costs(suite: Suite, page: Hands) -> None:
    """Costs beyond 2 to the 53rd are shown in all their digits: their change by a step, compared, found, and in a report."""
    count, weight = 6_400, 999_999_999
    rows = "".join(f"{number}; 1; 2; 0; 1439; {weight}\n" for number in range(count))
    page.again()
    page.show({"activities": rows, "times": "1; 0\n2; 1439\n", "period": "1440"})
    before = 1439 * weight * count
    suite.holds("it is so great", before > 2**53)
    page.ask("Page.step(['weight 0 999999998'])")
    after = before - 1439
    came = {"cost": page.text("#figure-cost b"), "change": page.text("#figure-cost small")}
    suite.note("a step", {"cost": f"{after:,}", "change": "1,439 less"}, came)
    page.press("keep-A")
    page.ask("Page.step(['weight 0 999999997'])")
    page.press("keep-B")
    page.press("tab-compare")
    told = page.ask("Page.find('view-compare').textContent")
    suite.holds("beside each other", f"{after:,}" in told and f"{after - 1439:,}" in told)
    suite.note("nothing is unknown", {"they": []}, {"they": UNKNOWN.findall(page.ask(MARKUP))})
    page.again()


GROUPS = [at_the_limits, followed, long_files, elided, many_lines_drawn, exact, far_places, great_costs]
