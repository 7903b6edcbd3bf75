"""Files that are opened and saved, and what strangers put into them."""

import base64
import json
import pathlib
import tempfile
from typing import Dict, List, Mapping, Tuple, Union

from page_tests.hands import TWO_TRAINS, Hands
from pespbench import Labels
from tests.harness import TOP, Suite

EXAMPLES = TOP / "examples"
# Texts that would act on the page as markup or as a script.
HOSTILE = (
    '<img src=x onerror="hostile=1"><script>hostile=1</script>"\'><svg onload=hostile=1>&amp;${hostile=1}`</style>'
)


def drop(page: Hands, given: Mapping[str, Union[bytes, str]]) -> None:
    """Drops files with their texts on the page."""
    listed = {
        name: text if isinstance(text, str) else {"base64": base64.b64encode(text).decode()}
        for name, text in given.items()
    }
    page.ask(
        f"""(() => {{
        const transfer = new DataTransfer();
        for (const [name, text] of Object.entries({json.dumps(listed)})) {{
            const data = typeof text === 'string' ? text : Uint8Array.from(atob(text.base64), letter => letter.charCodeAt(0));
            transfer.items.add(new File([data], name));
        }}
        document.body.dispatchEvent(new DragEvent('drop', {{ dataTransfer: transfer, bubbles: true, cancelable: true }}));
    }})()"""
    )
    page.until("Page.find('opening').open || Page.find('said').textContent.startsWith('opened')")
    page.frame()


def forget(page: Hands) -> None:
    page.ask("document.querySelectorAll('dialog[open]').forEach(each => each.close()); Page.say('')")


def dropping(suite: Suite, page: Hands) -> None:
    """Dropped files are opened at once if their names and the period determine all, and otherwise after a question."""
    page.show(TWO_TRAINS)
    forget(page)
    folder = EXAMPLES / "two-changes"
    drop(page, {name: (folder / name).read_text() for name in ("activities", "fixed", "labels", "period")})
    came = {
        "said": page.said(),
        "events": page.ask("Page.view.network.events.length"),
        "held": page.row(1, "note"),
        "name": page.text('[data-row="1"] .name'),
    }
    suite.note(
        "a folder",
        {"said": "opened: activities, fixed, labels, period", "events": 8, "held": "at :03", "name": "Ashford dep."},
        came,
    )
    forget(page)
    drop(
        page,
        {
            "activities.csv": (EXAMPLES / "two-trains/activities").read_text(),
            "my-times.txt": (EXAMPLES / "two-trains/times").read_text(),
        },
    )
    came = {
        "open": page.ask("Page.find('opening').open"),
        "kinds": page.ask("[...document.querySelectorAll('#opening-files select')].map(each => each.value)"),
    }
    suite.note("files without a period", {"open": True, "kinds": ["activities", "times"]}, came)
    page.ask("Page.find('opening-period').value = '10'; Page.find('opening-form').requestSubmit()")
    page.frame()
    came = {
        "open": page.ask("Page.find('opening').open"),
        "cost": page.ask("Page.view.cost"),
        "period": page.ask("Page.view.network.period"),
    }
    suite.note("opened by a click", {"open": False, "cost": 3, "period": 10}, came)
    windows = {
        "activities": "1; 1; 2; 3; 5; 2\n",
        "windows": "event; first; length\n1; 9; 3\n5; 1; 2\n",
        "events": "event\n5\n",
        "times": "1; 0\n2; 3\n5; 7\n",
        "period": "10\n",
    }
    forget(page)
    drop(page, windows)
    wanted = {
        "windows": [[1, {"first": 9, "length": 3}], [5, {"first": 1, "length": 2}]],
        "times": [[1, 0], [2, 3], [5, 7]],
    }
    suite.note(
        "windows and events",
        wanted,
        {"windows": page.ask("[...Page.view.network.windows]"), "times": page.ask("[...Page.view.times]")},
    )
    forget(page)
    drop(page, {"lines": "add event 1\nadd event 2\nadd activity 1 1 2 3 5 2\nadopt\ncost\n", "period": "10"})
    came = {"times": page.ask("[...Page.view.times]"), "setup": page.ask("Page.present().base.setup")}
    suite.note("lines, of which a search is not done again", {"times": [[1, 0], [2, 3]], "setup": []}, came)


def refused(suite: Suite, page: Hands) -> None:
    """An unreadable file is refused with the program's text, and the present state stays."""
    page.show(TWO_TRAINS)
    state = page.state()
    cases: List[Tuple[str, Dict[str, Union[bytes, str]], str]] = [
        (
            "bounds",
            {"activities": "1; 1; 2; 5; 3; 2\n", "period": "10"},
            "activities file, record 1: lower bound above upper bound",
        ),
        (
            "UTF-16",
            {"activities": "x; 1; 2; 3; 5; 2\n1; 1; 2; 5; 3; 2\n".encode("utf-16"), "period": "10"},
            "activities file, record 2: lower bound above upper bound",
        ),
        (
            "a name",
            {"activities": "1; 1; 2; 3; 5; 2\n", "times": "1; 0\nBenton; 3\n", "period": "10"},
            "times file, record 2: field 1 is not a number",
        ),
        (
            "an event",
            {"activities": "1; 1; 2; 3; 5; 2\n", "fixed": "7; 3\n", "period": "10"},
            "fixed file, record 1: event is not in the instance",
        ),
        (
            "a window",
            {"activities": "1; 1; 2; 3; 5; 2\n", "windows": "1; 3; 11\n", "period": "10"},
            "event 1: it cannot be held for 11 minutes of the period",
        ),
        (
            "a label",
            {"activities": "1; 1; 2; 3; 5; 2\n", "labels": "1; M\n", "period": "10"},
            "labels file, record 1: there is no header `event; line; to; station; kind` or `activity; kind` above it",
        ),
        (
            "a row of a window",
            {"activities": "1; 1; 2; 3; 5; 2\n", "windows": "event; first; length\n1; 3\n", "period": "10"},
            "windows file, record 2: wrong number of fields",
        ),
        (
            "a row of an event",
            {"activities": "1; 1; 2; 3; 5; 2\n", "events": "9\n8; 3\n", "period": "10"},
            "events file, record 2: wrong number of fields",
        ),
        (
            "two periods",
            {"activities": "1; 1; 2; 3; 5; 2\n", "period": "10\n12\n"},
            "period file: it is no file of one period",
        ),
        ("a period", {"activities": "1; 1; 2; 3; 5; 2\n", "period": "1"}, "period 1: it has to be from 2 to 1440"),
        (
            "a binary file",
            {"activities": bytes(range(256)) * 40, "period": "10"},
            "activities file, record 1: wrong number of fields",
        ),
    ]
    for name, given, told in cases:
        forget(page)
        drop(page, given)
        came = {
            "told": page.text("#opening-fault"),
            "open": page.ask("Page.find('opening').open"),
            "state": page.state() == state,
        }
        suite.note(name, {"told": told, "open": True, "state": True}, came)
    forget(page)


def hostile(suite: Suite, page: Hands) -> None:
    """Names that look like markup, scripts or styles remain texts, wherever they are drawn."""
    label = '"' + HOSTILE.replace('"', '""') + '"'
    labels = "event; line; to; station; kind\n" + "".join(
        f"{event};{label};{label};{station}{label[1:]};{kind}\n"
        for event, station, kind in [
            (1, '"A', "departure"),
            (2, '"B', "arrival"),
            (3, '"B', "departure"),
            (4, '"A', "arrival"),
        ]
    )
    activities = "1; 1; 2; 3; 5; 2\n2; 2; 3; 2; 4; 1\n3; 3; 4; 3; 5; 1\n4; 4; 1; 2; 9; 1\n"
    forget(page)
    page.show(
        {
            "activities": activities,
            "times": "1; 0\n2; 3\n3; 5\n4; 8\n",
            "labels": labels + f"activity; kind\n1;{label}\n",
            "period": "10",
        },
        HOSTILE,
    )
    for tab in ("netgraph", "tables", "violated", "lines", "why", "diagram"):
        page.ask(f"Page.step(['fix 2 9']); Page.showTab('{tab}')")
        page.frame()
    page.ask("window.dispatchEvent(new Event('beforeprint')); Page.showSaving()")
    page.frame()
    came = {
        "acted": page.ask("typeof hostile"),
        "images": page.ask("document.querySelectorAll('img, iframe, object, [onerror], [onload]').length"),
        "scripts": page.ask("[...document.scripts].filter(each => each.textContent.startsWith('hostile')).length"),
    }
    suite.note("nothing acts", {"acted": "undefined", "images": 0, "scripts": 0}, came)
    name = f"{HOSTILE} to {HOSTILE} leaves A{HOSTILE}"
    suite.note(
        "the name stays a text",
        {"name": name},
        {"name": page.ask("Page.showRow(1); Page.find('chosen-name').textContent")},
    )
    suite.note("in the title", {"title": HOSTILE}, {"title": page.text("#title")})
    suite.holds(
        "in the diagram",
        page.ask(
            f"[...document.querySelectorAll('#diagram text')].some(each => each.textContent === {json.dumps('A' + HOSTILE)})"
        ),
    )
    forget(page)
    saved = page.ask("Page.filesToSave().labels")
    with tempfile.TemporaryDirectory() as folder:
        path = pathlib.Path(folder) / "labels"
        path.write_text(saved)
        read = Labels.read(path)
    suite.note(
        "saved",
        {"line": HOSTILE, "station": "A" + HOSTILE},
        {"line": read.events[1].line, "station": read.events[1].station},
    )
    page.ask("window.dispatchEvent(new Event('afterprint'))")


GROUPS = [dropping, refused, hostile]
