"""A report, which is this page with the program's replies inside: it is read, printed, and edited."""

import base64
import pathlib
import tempfile
from typing import Any, Dict

from page_tests.hands import Hands
from pespbench.report.page import EMPTY, written
from tests.harness import Suite

NAME = "</script><script>alert('&')</script><img src=x onerror=alert(1)>"
# Two trains at period 10, of which the second waits a minute too long.
CONTENT: Dict[str, Any] = {
    "title": f"Two {NAME}",
    "network": {"period": 10, "events": [1, 2], "windows": [[1, 0, 1]], "activities": [[1, 1, 2, 3, 5, 2], [2, 2, 1, 4, 6, 1]]},
    "labels": {"events": [[1, "M", "Benton", "Ashford", "departure"], [2, "M", "Benton", NAME, "arrival"]], "kinds": [[1, "run"]]},
    "places": [], "times": [[1, 0], [2, 3]], "domains": [[1, [0]], [2, [4, 5]]], "tensions": [[1, 3, 0], [2, 7, 3]],
    "violations": {"activities": [2], "events": []}, "cost": "3", "missing": "", "search": "", "isInfeasible": False,
}  # fmt: skip


def opened(page: Hands, content: Dict[str, Any]) -> pathlib.Path:
    """Opens a report instead of the page, and returns its path."""
    folder = tempfile.mkdtemp(prefix="pespbench-report-")
    path = pathlib.Path(folder) / "report.html"
    text = pathlib.Path(page.address.removeprefix("file://")).read_text()
    path.write_text(text.replace(EMPTY, f"{EMPTY[:-9]}{written(content)}</script>", 1))
    page.requests.clear()
    page.open(path.as_uri())
    return path


def closed(page: Hands, path: pathlib.Path) -> None:
    """Returns from the report to the page, and removes the report."""
    page.again()
    page.requests.clear()
    path.unlink()
    path.parent.rmdir()


def read(suite: Suite, page: Hands) -> None:
    """A report shows the program's replies, with names as texts, and has no controls and sends no requests."""
    path = opened(page, CONTENT)
    shown = page.text("#printed")
    for wanted in (f"Two {NAME}", "takes, or is", "1 too many", "Activities by kind", "M to Benton arrives at"):
        suite.holds(f"it has {wanted}", wanted in shown)
    suite.note("what is violated", {"rows": ["2"]}, {"rows": page.ask("[...document.querySelectorAll('[data-violated-activity]')].map(each => each.dataset.violatedActivity)")})
    images, buttons = page.ask("[document.images.length, document.querySelectorAll('#printed :is(button, input, [role=slider])').length]")
    suite.note("names are texts, and but for one button there are no hands", {"images": 0, "buttons": 1}, {"images": images, "buttons": buttons})
    suite.note("no request", {"requests": [path.as_uri()]}, {"requests": page.requests})
    suite.holds("the workbench is not seen", not page.is_shown("main") and page.is_shown("printed"))
    suite.holds("nothing is asked of the module yet", page.ask("Page.program === null"))
    for size in [(1360, 850), (390, 800)]:
        page.resize(*size)
        page.frame()
        suite.note(f"at {size[0]} points", {"wider": 0}, {"wider": page.ask("document.documentElement.scrollWidth - innerWidth")})
    page.resize(1440, 900)
    paper = base64.b64decode(page.call("Page.printToPDF", printBackground=True, preferCSSPageSize=True)["data"])
    suite.holds("it is printed", paper.startswith(b"%PDF") and len(paper) > 5_000)
    closed(page, path)


def worked_on(suite: Suite, page: Hands) -> None:
    """One click, or Enter, opens it in the workbench with times, names and places; a step can be made and undone."""
    content = {**CONTENT, "title": "Two trains", "places": [["Ashford", [1, 2]]]}
    path = opened(page, content)
    page.click(*page.middle("#work"))
    page.until("document.body.classList.contains('ready') && Page.view !== null && !document.body.classList.contains('report')")
    came = page.ask("[Page.session.opened.title, [...Page.view.times], [...Page.places], String(Page.view.cost), Page.countViolated(Page.view), Page.isSaved()]")
    suite.note("the same network", {"it": ["Two trains", [[1, 0], [2, 3]], [["Ashford", [1, 2]]], "3", 1, True]}, {"it": came})
    page.ask("Page.step(['time 2 4'])")
    suite.note("it follows", {"violated": 0}, {"violated": page.ask("Page.countViolated(Page.view)")})
    suite.note("no request", {"requests": [path.as_uri()]}, {"requests": page.requests})
    closed(page, path)
    path = opened(page, content)
    page.ask("Page.find('work').focus()")
    page.type("\n")
    page.until("document.body.classList.contains('ready') && Page.view !== null && !document.body.classList.contains('report')")
    suite.holds("by a key too", page.is_shown("main"))
    closed(page, path)


def without_times(suite: Suite, page: Hands) -> None:
    """If there is no timetable, that is the headline."""
    path = opened(page, {**CONTENT, "times": [], "tensions": None, "violations": None, "cost": None, "missing": "event 1 has no time"})
    suite.note("the headline", {"it": "There is no timetable yet."}, {"it": page.text("#printed .headline")})
    suite.holds("what is not known", "events have no time, so nothing is said of slack, cost and violations." in page.text("#printed"))
    closed(page, path)


GROUPS = [read, worked_on, without_times]
