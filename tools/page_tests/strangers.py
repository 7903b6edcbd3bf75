"""Files of strangers: none of their contents acts, each fault is reported, and long work can be stopped."""

import pathlib
import tempfile

from page_tests.hands import TWO_TRAINS, Hands
from page_tests.untouched import placed
from tests.harness import Suite

TWO_EVENTS = "add event 1\nadd event 2\n"
# A network of 600 events, each joined to three others by overlapping spans, whose search takes long.
JOINED = [(event, (step * event + step) % 600, 3 + event * step % 17) for event in range(600) for step in (1, 7, 31)]
LONG = "".join(f"add event {event}\n" for event in range(600)) + "".join(
    f"add activity {number} {first} {last} {lower} {lower + 30} {1 + number % 13}\n"
    for number, (first, last, lower) in enumerate(JOINED)
)


def played(suite: Suite, page: Hands) -> None:
    """A file of lines that searches, or has many lines, can be stopped, and changes nothing then."""
    with tempfile.TemporaryDirectory() as folder:
        page.again()
        state = page.state()
        page.drop(*placed(folder, {"lines": f"{LONG}adopt\n", "period": "60"}))
        came = {"stop": page.is_shown("stop"), "found": page.text("#found")}
        suite.note("it can be stopped", {"stop": True, "found": "Doing the commands …"}, came)
        page.click(*page.minute(3, 20))
        page.frame()
        suite.note("the page is usable", {"chosen": 3}, {"chosen": page.ask("Page.chosen")})
        page.press("stop")
        came = {"said": page.said(), "stop": page.is_shown("stop"), "state": page.state() == state}
        wanted = {"said": "the opening was stopped, and nothing has changed", "stop": False, "state": True}
        suite.note("stopped", wanted, came)
        lines = f"{TWO_EVENTS}add activity 1 1 2 3 5 2\ntime 1 7\nadopt\ntime 2 4\n"
        page.drop(*placed(folder, {"lines": lines, "period": "10"}))
        page.until("Page.find('said').textContent.startsWith('opened')")
        came = {"times": page.ask("[...Page.view.times]"), "setup": page.ask("Page.present().base.setup")}
        suite.note("one that ends", {"times": [[1, 0], [2, 4]], "setup": []}, came)
        many = "add event 1\n" + "".join(f"fix 1 {number % 60}\n" for number in range(5_000))
        page.drop(*placed(folder, {"lines": many, "period": "60"}))
        page.until("Page.find('said').textContent.startsWith('opened')")
        suite.note("many lines", {"held": "at :19"}, {"held": page.row(1, "note")})
        lines = f"{TWO_EVENTS}add activity 1 1 2 3 3 2\nadd activity 2 2 1 3 3 1\nadopt\n"
        page.drop(*placed(folder, {"lines": lines, "period": "10"}))
        page.until("Page.find('opening').open")
        suite.note("one that finds none", {"told": "no timetable meets everything"}, {"told": page.opening()["told"]})


def commands(suite: Suite, page: Hands) -> None:
    """A field of the page's own files is not a command, whatever is in its quotes, and a line that is too long is reported."""
    two = {"activities": "1; 1; 2; 3; 5; 2\n", "period": "10"}
    for name, texts, told in [
        ("a window", {"windows": '1; 3; "2\nadd event 5"\n'}, "windows file, record 1: field 3 is not a number"),
        ("a window twice", {"windows": "1; 3; 2\n1; 4; 2\n"}, "windows file, record 2: event is repeated"),
        ("an event", {"events": '"5\nadd event 6"\n'}, "events file, record 1: field 1 is not a number"),
        ("an event of words", {"events": "1000000000\n"}, "events file, record 1: field 1 is out of range"),
        ("a time", {"events": "5\n", "times": '5; "1\nadd event 6"\n'}, "times file, record 1: field 2 is not a number"),
        ("a label", {"labels": "event\n'; M\n"}, "labels file, record 2: field 1 is not a number"),
        ("a place", {"places": "A; ; 3\n"}, "places file, record 1: wanted station; x; y"),
        ("a long line", {"lines": "fix 1 0\n# " + "x" * 4_095 + "\n"}, "lines file: line 2 is longer than 4096 bytes"),
        ("blanks", {"activities": "\n \n" * 1_000}, "activities file: there is nothing in it but blanks"),
    ]:
        with tempfile.TemporaryDirectory() as folder:
            page.again()
            page.drop(*placed(folder, {**two, **texts}))
            suite.note(name, {"open": True, "told": told}, page.opening())
    page.again()
    page.press("tab-lines")
    page.ask(f"Page.find('line').value = 'domain ' + '1'.repeat({4_090})")
    page.click(*page.middle("#line"))
    page.type("\n")
    suite.note("a line that is typed", {"said": "line 1 is longer than 4096 bytes"}, {"said": page.said()})


def names(suite: Suite, page: Hands) -> None:
    """A kind, a line or a first field that is a word of JavaScript is a word."""
    events = "1; toString; __proto__; valueOf; constructor\n2; M; Benton; Benton; hasOwnProperty\n"
    labels = f"event; line; to; station; kind\n{events}activity; kind\n1; constructor\n"
    page.again()
    page.show({**TWO_TRAINS, "labels": labels})
    page.click(*page.middle('[data-row="1"] .name'))
    page.frame()
    selectors = {"row": '[data-row="1"] .name', "chosen": "#chosen-name", "card": '[data-activity="1"] .title button'}
    came = {name: page.text(selector) for name, selector in selectors.items()}
    wanted = {
        "row": "valueOf constructor",
        "chosen": "toString to __proto__ constructor at valueOf",
        "card": "constructor at valueOf and Benton from toString to __proto__ into M to Benton",
    }
    suite.note("a kind", wanted, came)
    with tempfile.TemporaryDirectory() as folder:
        page.drop(*placed(folder, {**TWO_TRAINS, "labels": "event; line\nconstructor; M\n"}))
        suite.note("a row", {"told": "labels file, record 2: field 1 is not a number"}, page.opening())


def trapped(suite: Suite, page: Hands) -> None:
    """A trapped session is reported, not used again, and no longer on the screen."""
    page.again()
    page.ask("""(() => {
        const { ask } = PespModule, broken = new Set(), said = Page.find('said');
        Object.assign(window, { usedAgain: 0, told: '' });
        const hear = changes => changes.forEach(({ addedNodes }) => addedNodes.forEach(({ textContent }) => { window.told += textContent; }));
        new MutationObserver(hear).observe(said, { childList: true });
        PespModule.ask = (module, session, line) => {
            if (broken.has(module)) window.usedAgain += 1;
            if (line === 'fix 1 40') {
                broken.add(module);
                module.calls.pesp_answer(10, 0xfffffff0n, 100n, 0n, 0n, 0n, 0n, 0n, 0n, 0n, 0n, 0n);
            }
            return ask(module, session, line);
        };
    })()""")
    page.drag([page.minute(1, 20), page.minute(1, 40)])
    came = {"lines": page.lines(), "held": page.row(1, "note"), "is told": "trapped" in page.ask("told")}
    suite.note("a step that traps", {"lines": [], "held": "", "is told": True}, came)
    page.drag([page.minute(2, 20), page.minute(2, 30)])
    came = {"used again": page.ask("usedAgain"), "line": page.lines()[-1:]}
    suite.note("a step after it", {"used again": 0, "line": ["fix 2 30"]}, came)


def helped(suite: Suite, page: Hands) -> None:
    """A file of another form that is not converted is reported with its form, and with a remedy."""
    rows = "activity; from; to; lower; upper; weight\n1; 1; 2; 3; 5; 2\n"
    decimal = "It has decimal commas. Write whole numbers, as 2, or with a point"
    for name, data, word in [
        ("tabs below semicolons", f"{rows}2\t2\t1\t4\t6\t1\n".encode(), "Tabs stand between its fields. Save it with semicolons"),
        ("two decimal commas among commas", b"1,1,2,3,0,5,2,0\n", decimal),
        ("a decimal comma in one row", b"1,1,2,3,5,2,0\n2,2,1,4,6,1\n", decimal),
        ("thousands", rows.replace("; 2\n", "; 1,000\n").encode(), "1,000 can be 1 or 1000. Write it without the comma."),
        ("another fault", b"1; 1; 2; 5; 3; 2\n", ""),
    ]:
        with tempfile.TemporaryDirectory() as folder:
            page.again()
            (pathlib.Path(folder) / "activities").write_bytes(data)
            page.drop(pathlib.Path(folder) / "activities", *placed(folder, {"period": "10"}))
            came = page.opening()
            suite.holds(f"{name}: {came['told']}", came["told"].startswith("activities file, record "))
            suite.note(name, {"help": word}, {"help": came["help"][: len(word)] if word else came["help"]})


GROUPS = [played, commands, names, trapped, helped]
