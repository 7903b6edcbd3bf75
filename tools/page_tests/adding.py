"""Additions and removals by hand: activities, events, names, and a line with its stops."""

import tempfile

from page_tests.hands import TWO_TRAINS, Hands
from page_tests.keys import CTRL
from page_tests.untouched import placed
from tests.harness import Suite

KINDS = "[...Page.labels.kinds]"


def activity_added(suite: Suite, page: Hands) -> None:
    """An activity is added between two clicked events, with kind, span and weight, and undone with its kind."""
    page.again()
    size = page.text("#size")
    page.click(*page.middle('[data-row="4"] .name'))
    page.press("add-from")
    suite.holds("the other is asked for", "choose the event to which it leads" in page.text("#adding"))
    page.click(*page.middle('[data-row="9"] .name'))
    page.frame()
    names = page.ask("[4, 9].map(Page.eventName)")
    suite.note("both are told", {"ends": f"from {names[0]} to {names[1]}"}, {"ends": page.text("#added-ends")})
    page.press("exchange")
    suite.note("they are exchanged", {"chosen": 4}, {"chosen": page.ask("Page.chosen")})
    page.press("exchange")
    for name, text in [("kind", "walk"), ("least", "3"), ("most", "0:20"), ("weight", "7")]:
        page.fill(f"#added-{name}", text)
    page.press("add-it")
    came = {"lines": page.lines(), "kind": page.ask("Page.labels.kinds.get(146)")}
    suite.note("added", {"lines": ["add activity 146 4 9 3 20 7"], "kind": "walk"}, came)
    suite.holds("its card names it", "walk" in page.text('[data-activity="146"] .title button'))
    suite.holds(f"it is told: {page.said()}", page.said().startswith(f"walk added from {names[0]} to {names[1]}: cost "))
    page.key("z", 90, CTRL)
    page.frame()
    came = {"size": page.text("#size"), "kind": page.ask("Page.labels.kinds.has(146)"), "saved": page.ask("Page.isSaved()")}
    suite.note("undone", {"size": size, "kind": False, "saved": True}, came)
    page.key("y", 89, CTRL)
    page.frame()
    suite.note("done again", {"kind": "walk"}, {"kind": page.ask("Page.labels.kinds.get(146)")})
    saved = page.ask("Page.filesToSave()")
    suite.holds("it is saved", "146; 4; 9; 3; 20; 7" in saved["activities"] and "146;walk" in saved["labels"])
    page.press("add-from")
    page.click(*page.middle('[data-row="1"] .name'))
    page.frame()
    for name, text in [("least", "9"), ("most", "3\n")]:
        page.fill(f"#added-{name}", text)
    came = {"said": page.said(), "typed": page.ask("Page.find('added-least').value"), "lines": len(page.lines())}
    suite.note("a span that is none", {"said": "from R1 to Inworth leaves Marden to R1 to Inworth leaves Gorsley: the least minutes are more than the most", "typed": "9", "lines": 1}, came)
    page.again()


def dropped_by_hand(suite: Suite, page: Hands) -> None:
    """Activities and events are dropped by a button that names them, and return by Undo."""
    page.show(TWO_TRAINS)
    state = page.state()
    button = '[data-activity="1"] .drop'
    suite.note("the button", {"text": "Drop this run"}, {"text": page.text(button)})
    page.click(*page.middle(button))
    page.frame()
    suite.note("an activity", {"lines": ["drop activity 1"], "left": 1}, {"lines": page.lines(), "left": page.ask("Page.view.network.activities.size")})
    suite.note("the event", {"text": "Drop this departure and its activity"}, {"text": page.text("#drop-event")})
    page.press("drop-event")
    wanted = {"lines": ["drop activity 1", "drop activity 2", "drop event 1"], "left": [2], "chosen": 2}
    came = {"lines": page.lines(), "left": page.ask("Page.view.network.events"), "chosen": page.ask("Page.chosen")}
    suite.note("an event with its activity, in one step", wanted, came)
    suite.holds(f"in words: {page.said()}", page.said().startswith("M to Benton leaves Ashford dropped"))
    page.press("undo")
    page.press("undo")
    suite.note("and all is back", {"state": True, "lines": []}, {"state": page.state() == state, "lines": page.lines()})


def named_by_hand(suite: Suite, page: Hands) -> None:
    """An event is named; that is then unsaved, and an undo restores the old name."""
    page.show({"activities": TWO_TRAINS["activities"], "period": "10"})
    suite.note("without a name", {"name": "event 1"}, {"name": page.text("#chosen-name")})
    page.click(*page.middle("#adding summary"))
    for part, text in [("line", "M"), ("to", "Benton"), ("station", "Ashford"), ("kind", "departure")]:
        page.fill(f"#named-{part}", text)
    page.press("name-it")
    name = "M to Benton leaves Ashford"
    came = {"name": page.text("#chosen-name"), "saved": page.ask("Page.isSaved()"), "line": page.ask("Page.view.lines.map(line => line.name)")}
    suite.note("named", {"name": name, "saved": False, "line": ["M"]}, came)
    suite.holds(f"in words: {page.said()}", page.said().startswith("event 1 is M to Benton leaves Ashford"))
    page.press("undo")
    suite.note("undone", {"name": "event 1", "saved": True}, {"name": page.text("#chosen-name"), "saved": page.ask("Page.isSaved()")})
    page.press("redo")
    suite.note("and done again", {"name": name}, {"name": page.text("#chosen-name")})


def labels_added(suite: Suite, page: Hands) -> None:
    """A file of labels alone is added to the open network, in one step, and does not change the other labels."""
    page.again()
    page.drag([page.minute(1, 20), page.minute(1, 30)])
    with tempfile.TemporaryDirectory() as folder:
        page.drop(*placed(folder, {"labels": "event\n1; R1; Inworth; Gorsley West; departure\nactivity\n1; trip\n"}))
        came = {"name": page.text("#chosen-name"), "card": page.text('[data-activity="1"] .drop'), "lines": page.lines()}
        wanted = {"name": "R1 to Inworth leaves Gorsley West", "card": "Drop this trip", "lines": ["fix 1 30"]}
        suite.note("added", wanted, came)
        suite.note("the others stay", {"name": "Dale arr."}, {"name": page.text('[data-row="2"] .name')})
        page.press("undo")
        suite.note("undone", {"name": "R1 to Inworth leaves Gorsley"}, {"name": page.text("#chosen-name")})
        page.drop(*placed(folder, {"labels": "1; M\n"}))
        told = "labels file, record 1: there is no header `event; line; to; station; kind` or `activity; kind` above it"
        suite.note("a fault", {"told": told, "lines": ["fix 1 30"]}, {"told": page.opening()["told"], "lines": page.lines()})
    page.press("opening-close")


def line_added(suite: Suite, page: Hands) -> None:
    """A line with its stops is added in both directions by one step, with names, and reads as typed."""
    page.again()
    page.press("tab-tables")
    page.press("add-line")
    page.fill("#line-name", "X9")
    for place, (station, dwell, run) in enumerate([("Ashford", "", "6 to 8"), ("New Halt", "1-3", "0:12"), ("Hatton", "", "")], 1):
        for part, text in [("station", station), ("dwell", dwell), ("run", run)]:
            if text:
                page.fill(f'#stops tr:nth-child({place}) [data-part="{part}"]', text)
    page.press("line-name")
    page.type("\n")
    page.frame()
    suite.note("it is shown", {"event": "X9 to Hatton leaves Ashford"}, {"event": page.text("#chosen-name")})
    wanted = ["Ashford", "New Halt", "Hatton"]
    line = "Page.view.lines.find(each => each.name === 'X9')"
    came = {"stations": page.ask(f"{line}.stations"), "trains": page.ask(f"{line}.trains.map(train => [train.to, train.events.length])")}
    suite.note("a line", {"stations": wanted, "trains": [["Hatton", 4], ["Ashford", 4]]}, came)
    span = "(({ number, lower, upper }) => [lower, upper, Page.labels.kinds.get(number)])(Page.view.network.activities.get(step))"
    spans = page.ask(f"{line}.trains.map(train => train.steps.map(step => {span}))")
    there, back = [[6, 8, "run"], [1, 3, "dwell"], [12, 12, "run"]], [[12, 12, "run"], [1, 3, "dwell"], [6, 8, "run"]]
    suite.note("its spans", {"there": there, "back": back}, {"there": spans[0], "back": spans[1]})
    came = {"open": page.ask("Page.find('lining').open"), "size": page.text("#size"), "steps": page.ask("Page.session.steps.length")}
    suite.note("in one step", {"open": False, "size": "120 events, 151 activities, period 60", "steps": 1}, came)
    page.press("undo")
    suite.note("undone", {"line": False, "saved": True}, {"line": page.ask(f"Boolean({line})"), "saved": page.ask("Page.isSaved()")})
    page.press("add-line")
    page.fill("#line-name", "X9")
    page.fill('#stops tr:nth-child(1) [data-part="station"]', "A\n")
    suite.note("one stop", {"told": "Two stops are wanted."}, {"told": page.text("#lining-fault")})
    page.fill('#stops tr:nth-child(2) [data-part="station"]', "A\n")
    suite.note("one stop twice", {"told": "A follows itself."}, {"told": page.text("#lining-fault")})
    page.fill('#stops tr:nth-child(2) [data-part="station"]', "B\n")
    suite.note("no run", {"told": "run from A: wanted minutes, as 6, or 6 to 8"}, {"told": page.text("#lining-fault")})
    page.fill('#stops tr:nth-child(1) [data-part="run"]', "8-6\n")
    suite.note("a span that is none", {"told": "run from A: the least minutes of 8-6 are more than the most"}, {"told": page.text("#lining-fault")})
    page.press("lining-close")
    suite.note("nothing is added", {"lines": []}, {"lines": page.lines()})
    page.press("tab-diagram")


GROUPS = [activity_added, dropped_by_hand, named_by_hand, labels_added, line_added]
