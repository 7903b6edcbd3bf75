"""Operations on trains and lines: a new network, departures, trains an hour, changes of a line, and events without a time."""

from typing import Any, Dict, List

from page_tests.hands import Hands
from page_tests.keys import CODES, CTRL
from tests.harness import Suite

# A line A – B – C in both directions, and one that keeps a headway to it.
RUNS = "1; 1; 2; 5; 7; 3\n2; 2; 3; 2; 4; 3\n3; 3; 4; 6; 6; 3\n4; 5; 6; 6; 6; 1\n5; 6; 7; 2; 4; 1\n6; 7; 8; 5; 7; 1\n"
OTHERS = "7; 4; 5; 3; 20; 1\n8; 9; 10; 5; 5; 1\n9; 1; 9; 3; 57; 0\n10; 2; 9; 4; 30; 9\n"
EVENTS = [("M", "C", "A", "departure"), ("M", "C", "B", "arrival"), ("M", "C", "B", "departure"), ("M", "C", "C", "arrival"),
          ("M", "A", "C", "departure"), ("M", "A", "B", "arrival"), ("M", "A", "B", "departure"), ("M", "A", "A", "arrival"),
          ("X", "B", "A", "departure"), ("X", "B", "B", "arrival")]
KINDS = ["run", "dwell", "run", "run", "dwell", "run", "turn", "run", "headway", "change"]
NETWORK = {
    "activities": RUNS + OTHERS,
    "times": "".join(f"{event}; {time}\n" for event, time in enumerate([0, 5, 7, 13, 20, 26, 28, 33, 10, 15], 1)),
    "labels": "event; line; to; station; kind\n" + "".join(f"{number}; {'; '.join(each)}\n" for number, each in enumerate(EVENTS, 1))
    + "activity; kind\n" + "".join(f"{number}; {kind}\n" for number, kind in enumerate(KINDS, 1)),
    "period": "60\n",
}
BARS = "[...document.querySelectorAll('.row.bar h3')].map(each => each.textContent)"


def trains(page: Hands, line: str) -> Any:
    """For each train of a line its destination, and its stations with the minutes there."""
    return page.ask(
        f"""(Page.view.lines.find(each => each.name === '{line}') || {{ trains: [] }}).trains.map(({{ to, events }}) =>
        [to, ...events.map(event => `${{Page.labelOf(event).station}} ${{Page.view.times.get(event) ?? '-'}}`)].join(', '))"""
    )


def fill_line(page: Hands, name: str, rows: List[Dict[str, str]], **fields: str) -> None:
    """Fills in the dialog of a line and submits it."""
    page.fill("#line-name", name)
    for field, text in fields.items():
        page.fill(f"#line-{field}", text)
    for place, row in enumerate(rows, 1):
        for part, text in row.items():
            page.fill(f'#stops tr:nth-child({place}) [data-part="{part}"]', text)
    page.click(*page.middle("#lining-form .main"))
    page.frame()


STOPS = [{"station": "A", "run": "5 to 7"}, {"station": "B", "dwell": "2", "run": "6"}, {"station": "C"}]


def altered(page: Hands, line: str, form: str, **fields: str) -> str:
    """Opens the dialog of a line, fills in one of its forms and submits it; returns its message, '' if it is closed."""
    page.press("tab-tables")
    page.click(*page.middle(f'[data-alter="{line}"]'))
    page.frame()
    for field, text in fields.items():
        if field == "stop_between":
            page.ask("Page.find('stop-between').focus()")
            page.type(text)
        else:
            page.fill(f"#{field.replace('_', '-')}", text)
    page.click(*page.middle(f"#{form} button:not([type])"))
    page.frame()
    told = page.text("#altering-fault")
    if page.is_shown("altering"):
        page.press("altering-close")
    return told


def undone(suite: Suite, page: Hands, state: str) -> None:
    """One undo reverts network, times and names."""
    page.key("z", 90, CTRL)
    page.frame()
    suite.note("undone as one", {"state": True, "saved": True}, {"state": page.state() == state, "saved": page.ask("Page.isSaved()")})


def new_network(suite: Suite, page: Hands) -> None:
    """A new network starts empty by a button, and its first line is typed at once, with departures and trains an hour."""
    page.again()
    page.drag([page.minute(1, 20), page.minute(1, 30)])
    page.press("new")
    suite.holds("what would be lost is told", page.is_shown("opening-loss"))
    page.press("begin-new")
    came = {"size": page.text("#size"), "lines": page.lines(), "open": page.ask("[...document.querySelectorAll('dialog[open]')].map(each => each.id)")}
    suite.note("with nothing in it", {"size": "0 events, 0 activities, period 60", "lines": [], "open": ["lining"]}, came)
    fill_line(page, "M", STOPS, hourly="2", leaves=":05", back="50")
    wanted = ["C, A 5, B 10, B 12, C 18", "C, A 35, B 40, B 42, C 48", "A, C 50, B 56, B 58, A 3", "A, C 20, B 26, B 28, A 33"]
    suite.note("its trains", {"they": wanted}, {"they": trains(page, "M")})
    figures = {"cost": page.text("#figure-cost b"), "violated": page.text("#figure-violations b"), "steps": page.ask("Page.session.steps.length")}
    suite.note("a whole timetable in one step", {"cost": "0", "violated": "0", "steps": 1}, figures)
    ties = page.ask("[...Page.view.network.activities.values()].filter(({ number }) => Page.kindOf(number) === 'twin').map(({ lower, upper, weight }) => [lower, upper, weight])")
    suite.note("each event is tied", {"ties": 8 * [[30, 30, 0]]}, {"ties": ties})
    suite.note("their names", {"they": ["M to C (:05)", "M to C (:35)", "M to A (:50)", "M to A (:20)"]}, {"they": page.ask(BARS)})
    suite.note("and their events'", {"it": "M to C (:05) leaves A"}, {"it": page.text("#chosen-name")})
    page.press("undo")
    suite.note("undone", {"size": "0 events, 0 activities, period 60"}, {"size": page.text("#size")})
    page.press("tab-tables")
    for fields, told in [({"hourly": "7"}, "7 trains an hour cannot come each some whole minutes in a period of 60."), ({"leaves": "75"}, "75: wanted a minute up to :59")]:
        page.press("add-line")
        fill_line(page, "M", STOPS, **fields)
        suite.note(str(fields), {"told": told, "lines": []}, {"told": page.text("#lining-fault"), "lines": page.lines()})
        page.press("lining-close")
    page.press("open")
    page.fill("#opening-period", "1")
    page.press("begin-new")
    suite.note("a period that is none", {"told": "period 1: it has to be from 2 to 1440"}, {"told": page.opening()["told"]})
    page.fill("#opening-period", "60")
    page.press("opening-close")


def departure(suite: Suite, page: Hands) -> None:
    """A train gets a departure, from which its times follow by its least minutes, and so do those of tied trains."""
    page.show({**NETWORK, "times": ""})
    state = page.state()
    page.click(*page.middle('[data-row="3"] .name'))
    page.fill("#depart-at", ":58\n")
    suite.note("its times", {"they": ["C, A 58, B 3, B 5, C 11", "A, C -, B -, B -, A -"]}, {"they": trains(page, "M")})
    came = {"said": page.said().split(":58")[0], "steps": page.ask("Page.session.steps.length"), "cost": page.text("#figure-cost b")}
    suite.note("one step", {"said": "M to C leaves A at ", "steps": 1, "cost": "0"}, came)
    page.click(*page.middle("#chosen-name"))
    undone(suite, page, state)
    page.fill("#depart-at", "60\n")
    suite.note("no minute", {"said": "60: wanted a minute up to :59", "lines": []}, {"said": page.said(), "lines": page.lines()})
    page.show(NETWORK)
    altered(page, "M", "hourly-line", hourly="2")
    page.click(*page.middle('[data-row="1"] .name'))
    page.fill("#depart-at", "4\n")
    times = ["C, A 4, B 9, B 11, C 17", "A, C 20, B 26, B 28, A 33", "C, A 34, B 39, B 41, C 47", "A, C 50, B 56, B 58, A 3"]
    suite.note("tied trains follow", {"times": times}, {"times": trains(page, "M")})
    suite.note("and are named anew", {"they": ["M to C (:04)", "M to A (:20)", "M to C (:34)", "M to A (:50)"]}, {"they": page.ask(BARS)[:4]})
    page.click(*page.middle('[data-row="11"] .name'))
    page.ask("document.querySelector('[data-way=\"11\"]').focus()")
    page.key("ArrowRight", CODES["ArrowRight"])
    came = {"keys": page.ask("document.activeElement.dataset.way"), "name": page.ask("document.activeElement.getAttribute('aria-label')")}
    suite.note("the keys stay on the bar, which is named anew", {"keys": "11", "name": "M to C (:35): the whole train"}, came)
    moved = [each.split(", ")[1] for each in trains(page, "M")]
    suite.note("as they are when one moves", {"they": ["A 5", "C 20", "A 35", "C 50"]}, {"they": moved})
    suite.holds(f"by its name: {page.said()}", page.said().startswith("M to C (:34) 1 minute later"))
    suite.note("no tie is broken by it", {"they": ["turn", "change"]}, {"they": page.ask("[...Page.view.violations.activities].map(Page.kindOf)")})


def line_altered(suite: Suite, page: Hands) -> None:
    """A line is renamed, copied, given a stop and dropped, with network and names in one step each, which one undo reverts."""
    page.show(NETWORK)
    state, labels = page.state(), page.ask("[...Page.labels.events]")
    suite.note("renamed", {"told": ""}, {"told": altered(page, "M", "rename-line", altered_name="N")})
    suite.note("its trains", {"they": 2, "old": []}, {"they": len(trains(page, "N")), "old": trains(page, "M")})
    undone(suite, page, state)
    told = altered(page, "M", "copy-line", copy_minutes="7", copy_name="N")
    came = {"told": told, "old": len(trains(page, "M")), "copy": trains(page, "N"), "said": page.said().split(":")[0]}
    wanted = {"told": "", "old": 2, "copy": ["C, A 7, B 12, B 14, C 20", "A, C 27, B 33, B 35, A 40"], "said": "line M copied 7 minutes later as N"}
    suite.note("copied", wanted, came)
    added = page.ask("[...Page.view.network.activities.values()].filter(each => each.number > 10).map(each => Page.kindOf(each.number))")
    suite.note("with a headway, and no change", {"kinds": [*KINDS[:7], "headway"]}, {"kinds": added})
    undone(suite, page, state)
    told = altered(page, "M", "stop-line", stop_station="Halt", stop_before="3", stop_dwell="1 to 2", stop_after="2")
    way = ["C, A 0, Halt 3, Halt 4, B 6, B 8, C 14", "A, C 20, B 26, B 28, Halt 30, Halt 31, A 34"]
    suite.note("given a stop, after which a train is later", {"told": "", "trains": way}, {"told": told, "trains": trains(page, "M")})
    spans = page.ask("[1, 11, 12].map(number => (({ lower, upper, weight }) => [lower, upper, weight, Page.kindOf(number)])(Page.view.network.activities.get(number)))")
    suite.note("its spans", {"they": [[3, 3, 3, "run"], [1, 2, 3, "dwell"], [2, 2, 3, "run"]]}, {"they": spans})
    undone(suite, page, state)
    suite.note("dropped", {"told": "", "lines": ["X"]}, {"told": altered(page, "M", "drop-line"), "lines": page.ask("Page.view.lines.map(line => line.name)")})
    suite.note("with its names", {"size": "2 events, 1 activities, period 60", "names": 2}, {"size": page.text("#size"), "names": page.ask("Page.labels.events.size")})
    undone(suite, page, state)
    suite.note("and all names are back", {"labels": True}, {"labels": page.ask("[...Page.labels.events]") == labels})
    for form, fields, told in [
        ("rename-line", {"altered_name": "X"}, "There is a line X already. Give it another name."),
        ("copy-line", {"copy_minutes": "7", "copy_name": "X"}, "There is a line X already. Give it another name."),
        ("copy-line", {"copy_minutes": "some", "copy_name": "N"}, "some: wanted minutes, as 6"),
        ("stop-line", {"stop_station": "C", "stop_before": "3", "stop_after": "3"}, "Line M has the stop C already."),
        ("stop-line", {"stop_station": "D", "stop_before": "x", "stop_after": "3"}, "stop at D: wanted minutes, as 6, or 6 to 8"),
        ("stop-line", {"stop_station": "D", "stop_before": "3-2", "stop_after": "3"}, "stop at D: the least minutes of 3-2 are more than the most"),
    ]:
        fault = altered(page, "M", form, **fields)
        suite.holds(f"{form}: {fault}", told in fault and page.lines() == [] and page.state() == state)


def stop_beyond(suite: Suite, page: Hands) -> None:
    """A line gets a stop beyond either end: its trains go there, come from there, and turn there; equal ones are tied there too."""
    page.show(NETWORK)
    state, stop = page.state(), {"stop_station": "D", "stop_before": "4 to 5", "stop_dwell": "2"}
    turn = "(({ first, last }) => [first, last].map(event => Page.eventName(event)))(Page.view.network.activities.get(7))"
    told = altered(page, "M", "stop-line", stop_between="beyond c", **stop)
    came = {"told": told, "trains": trains(page, "M"), "turn": page.ask(turn), "said": page.said().split(":")[0]}
    way = ["D, A 0, B 5, B 7, C 13, C 15, D 19", "A, D 14, C 18, C 20, B 26, B 28, A 33"]
    suite.note("beyond the last", {"told": "", "trains": way, "turn": ["M to D arrives at D", "M to A leaves D"], "said": "line M stops at D, beyond C"}, came)
    spans = page.ask("[11, 12, 13, 14].map(number => (({ lower, upper, weight }) => [lower, upper, weight, Page.kindOf(number)])(Page.view.network.activities.get(number)))")
    suite.note("what it adds", {"they": [[2, 2, 3, "dwell"], [4, 5, 3, "run"], [4, 5, 1, "run"], [2, 2, 1, "dwell"]]}, {"they": spans})
    undone(suite, page, state)
    altered(page, "M", "stop-line", stop_between="beyond a", **stop)
    way = ["D, C 20, B 26, B 28, A 33, A 35, D 39", "C, D 54, A 58, A 0, B 5, B 7, C 13"]
    suite.note("beyond the first", {"trains": way, "turn": ["M to C arrives at C", "M to D leaves C"]}, {"trains": trains(page, "M"), "turn": page.ask(turn)})
    undone(suite, page, state)
    twins = "[...Page.view.network.activities.values()].filter(({ number }) => Page.kindOf(number) === 'twin').length"
    altered(page, "M", "hourly-line", hourly="2")
    for place, count in [("beyond c", 12), ("between b", 16)]:
        before = page.ask(twins)
        altered(page, "M", "stop-line", stop_between=place, **{**stop, "stop_station": place[-1] + "1"}, **({} if place == "beyond c" else {"stop_after": "4"}))
        suite.note(f"{place}: ties", {"before": count - 4, "after": count}, {"before": before, "after": page.ask(twins)})


def hourly(suite: Suite, page: Hands) -> None:
    """Trains an hour are a number: additional trains are equal and tied, and existing ones stay."""
    page.show(NETWORK)
    state = page.state()
    suite.note("two", {"told": ""}, {"told": altered(page, "M", "hourly-line", hourly="2")})
    both = ["C, A 0, B 5, B 7, C 13", "A, C 20, B 26, B 28, A 33", "C, A 30, B 35, B 37, C 43", "A, C 50, B 56, B 58, A 3"]
    suite.note("they", {"trains": both}, {"trains": trains(page, "M")})
    suite.note("told apart", {"they": ["M to C (:00)", "M to A (:20)", "M to C (:30)", "M to A (:50)"]}, {"they": page.ask(BARS)[:4]})
    page.press("tab-tables")
    page.click(*page.middle('[data-alter="M"]'))
    page.frame()
    suite.note("the number that there is", {"it": "2"}, {"it": page.ask("Page.find('hourly').value")})
    page.press("altering-close")
    suite.note("again", {"told": "Line M has 2 trains an hour already."}, {"told": altered(page, "M", "hourly-line", hourly="2")})
    altered(page, "M", "hourly-line", hourly="4")
    starts = [each.split(", ")[1] for each in trains(page, "M")]
    suite.note("four", {"they": ["A 0", "C 20", "A 30", "C 50", "A 15", "A 45", "C 35", "C 5"]}, {"they": starts})
    altered(page, "M", "hourly-line", hourly="1")
    suite.note("one", {"state": True}, {"state": page.state() == state})
    suite.note("without a minute then", {"they": ["M to C", "M to A"]}, {"they": page.ask(BARS)[:2]})
    page.ask("Page.undo(); Page.undo(); Page.undo()")
    suite.note("undone", {"state": True}, {"state": page.state() == state})
    rows = "".join(f"{number}; M; C; {station}; {kind}\n" for number, station, kind in [(1, "A", "departure"), (2, "C", "arrival"), (3, "A", "departure"), (4, "C", "arrival")])
    page.show({"activities": "1; 1; 2; 9; 9; 1\n2; 3; 4; 9; 9; 1\n", "labels": rows.join(["event\n", ""]), "period": "60"})
    suite.note("without times", {"they": ["M to C (no. 1)", "M to C (no. 2)"]}, {"they": page.ask(BARS)})
    told = altered(page, "M", "hourly-line", hourly="4")
    suite.note("trains that are not tied", {"told": "M to C (no. 2) and M to C (no. 1) are not tied to each other. Drop one of them first."}, {"told": told})


def event_without_time(suite: Suite, page: Hands) -> None:
    """An event without a time hides only what needs it."""
    page.show(NETWORK)
    ways = "[...document.querySelectorAll('#diagram path.reach')].map(each => `${each.dataset.event} ${each.dataset.next}`)"
    page.press("tab-diagram")
    all_ways, cost = page.ask(ways), page.text("#figure-cost b")
    page.click(*page.middle('[data-row="3"] .name'))
    page.press("no-time")
    lost = sorted(set(all_ways) - set(page.ask(ways)))
    suite.note("the diagram", {"lost": ["2 3", "3 4"], "told": True}, {"lost": lost, "told": "between events with times: 1 event has no time." in page.text("#diagram-note")})
    came: Dict[str, Any] = {"cost": page.text("#figure-cost b"), "note": page.text("#figure-cost small"), "violated": page.text("#figure-violations b")}
    suite.note("the figures", {"cost": cost, "note": "1 event has no time", "violated": "0"}, came)
    bar = page.ask("document.querySelector('[data-way=\"1\"] .whole').getAttribute('d')")
    suite.note("the bar of the train", {"d": "M0.5 .5h5M13.5 .5h0"}, {"d": bar})
    page.ask("Page.step(['time 9 2'])")
    came = {"violated": page.text("#figure-violations b"), "row": page.ask("document.querySelector('[data-row=\"9\"] .conflict').textContent"), "mend": page.is_shown("mend")}
    suite.note("what is violated", {"violated": "3", "row": "✕ 2 not 3–57 headway +1", "mend": True}, came)
    page.press("tab-violated")
    suite.holds("the list", page.text("#view-violated").startswith("Of what has times: 1 event has no time.Mend all of it✕ "))
    page.show({**NETWORK, "times": ""})
    came = {"cost": page.text("#figure-cost b"), "note": page.text("#figure-cost small"), "violated": page.text("#figure-violations b")}
    suite.note("no times at all", {"cost": "–", "note": "10 events have no time", "violated": "–"}, came)
    page.press("tab-diagram")


def cost_called(suite: Suite, page: Hands) -> None:
    """The name of the cost is a label of the network, which is a step, saved and opened again, also by the Python package."""
    page.show(NETWORK)
    name = "#figure-cost span"
    page.press("tab-tables")
    page.fill("#cost-name", "passenger minutes\n")
    suite.note("called", {"it": "passenger minutes", "said": True}, {"it": page.text(name), "said": page.said().startswith("cost is called passenger minutes: ")})
    files = page.ask("Page.filesToSave()")
    page.press("undo")
    suite.note("undone", {"it": "Cost", "saved": True}, {"it": page.text(name), "saved": page.ask("Page.isSaved()")})
    page.show(files)
    suite.note("opened again", {"it": "passenger minutes", "field": "passenger minutes"}, {"it": page.text(name), "field": page.ask("Page.find('cost-name').value")})
    page.ask("Page.addLabels('event\\n1; M; C; Z; departure\\n')")
    suite.note("other labels leave it", {"it": "passenger minutes"}, {"it": page.text(name)})
    page.press("tab-diagram")


GROUPS = [cost_called, new_network, departure, line_altered, stop_beyond, hourly, event_without_time]
