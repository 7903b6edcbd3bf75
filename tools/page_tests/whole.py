"""The page as a whole: that nothing leaves it, its layout, printing, and what it says about itself."""

import base64
import pathlib
import re
import tempfile

from page_tests.hands import TWO_TRAINS, Hands
from tests.harness import Suite, within

# The most bytes that the page may have.
MOST_BYTES = 720_000


# Requests that a page could make; each records whether it was sent.
REQUESTS = {
    "fetch": "fetch('https://example.org/').then(() => 'sent', () => 'refused')",
    "an image": """new Promise(done => {
        const image = new Image();
        image.onerror = () => done('refused');
        image.onload = () => done('sent');
        image.src = 'https://example.org/a.png';
    })""",
    "a socket": """new Promise(done => {
        try {
            const socket = new WebSocket('wss://example.org/');
            socket.onerror = () => done('refused');
            socket.onopen = () => done('sent');
        } catch (fault) {
            done('refused');
        }
    })""",
}
# By how much the page is wider than the screen, and the texts that a drawing cuts.
LOOK = """(() => {
    const root = document.documentElement, texts = document.querySelectorAll('svg[viewBox] > text, svg[viewBox] > g > text');
    const cut = [...texts].filter(each => {
        const inner = each.getBoundingClientRect(), outer = each.ownerSVGElement.getBoundingClientRect();
        const isWithin = inner.left >= outer.left - 1 && inner.right <= outer.right + 1;
        return inner.width && !(isWithin && inner.top >= outer.top - 1 && inner.bottom <= outer.bottom + 1);
    });
    return { wider: root.scrollWidth - root.clientWidth, cut: cut.map(each => each.textContent) };
})()"""


def quiet(suite: Suite, page: Hands) -> None:
    """No request leaves the page, nothing is written to the browser's log, and the policy refuses all requests."""
    page.open(page.address)
    suite.note(
        "requests",
        {"beyond the page": []},
        {
            "beyond the page": [
                each for each in page.requests if each != page.address and not each.startswith(("blob:", "data:"))
            ]
        },
    )
    suite.note("the log", {"lines": []}, {"lines": page.log})
    for name, script in REQUESTS.items():
        suite.note(name, {"it": "refused"}, {"it": page.ask(script)})
    suite.holds(
        "each refusal is the policy's",
        all("Content Security Policy" in line or "Content-Security-Policy" in line for line in page.log),
    )
    page.log.clear()
    with open(page.address.removeprefix("file://"), "rb") as file:
        text = file.read()
    suite.holds(f"at most {MOST_BYTES} bytes, which has {len(text)}", len(text) <= MOST_BYTES)
    addresses = set(re.findall(rb"https?://[^\s\"'`<>)]*", text)) - {b"http://www.w3.org/2000/svg"}
    suite.note("addresses in the page", {"they": set()}, {"they": addresses})


def left(suite: Suite, page: Hands) -> None:
    """The page asks before it is left with unsaved steps, and only then."""
    for name, script, wanted in [
        ("nothing was done", "", 0),
        ("a step is not saved", "Page.step(['fix 2 40'])", 1),
        ("it is undone", "Page.step(['fix 2 40']); Page.undo()", 0),
        ("it is saved", "Page.step(['fix 2 40']); Page.showSaving(); Page.find('save-all').click()", 0),
    ]:
        page.ask(f"Page.openStory(Page.stories[0]); {script}")
        # A browser asks only after an action on the page.
        page.click(*page.middle("#title"))
        before = page.asked_to_stay
        page.open(page.address)
        suite.note(name, {"asked": wanted}, {"asked": page.asked_to_stay - before})


def unstarted(suite: Suite, page: Hands) -> None:
    """A page whose module is broken says that it cannot start."""
    with tempfile.TemporaryDirectory() as folder:
        broken = pathlib.Path(folder) / "broken.html"
        text = pathlib.Path(page.address.removeprefix("file://")).read_text()
        broken.write_text(text.replace('const PESPBENCH_MODULE = "', 'const PESPBENCH_MODULE = "AAAA'))
        page.call("Page.navigate", url=broken.as_uri())
        page.until("document.readyState === 'complete' && document.getElementById('cannot').open")
        suite.holds("it says why", page.ask("document.getElementById('cannot-why').textContent.length > 10"))
        page.log.clear()
        page.requests.remove(broken.as_uri())
        page.open(page.address)


def said_of_itself(suite: Suite, page: Hands) -> None:
    """The page says what is proved, and what is not."""
    told = page.text("footer")
    suite.holds("what is proved", "pespbench is proved" in " ".join(told.split()))
    suite.holds("what is not", "outside the proof" in told)


@within(240)
def laid_out(suite: Suite, page: Hands) -> None:
    """On a wide screen, at 200 per cent and on a small one, nothing is wider than the page, and no text is cut in a drawing."""
    for width, height, scale in [(1440, 900, 1), (720, 450, 2), (1024, 700, 1), (400, 800, 2)]:
        page.resize(width, height, scale)
        for story in range(3):
            page.ask(f"Page.openStory(Page.stories[{story}])")
            for tab in ("diagram", "netgraph", "tables"):
                page.ask(f"Page.showTab('{tab}')")
                page.frame()
                came = page.ask(LOOK)
                suite.note(f"{width} pixels, story {story}, {tab}", {"wider": 0, "cut": []}, came)
    page.resize(1440, 900)
    page.ask("Page.showTab('diagram')")


def drawn(suite: Suite, page: Hands) -> None:
    """The diagram and the netgraph show the times of replies, and follow each step."""
    page.ask("Page.openStory(Page.stories[0]); Page.showTab('netgraph')")
    wanted = page.ask(
        "Object.fromEntries([...Page.view.times].map(([event, time]) => [event, String(time).padStart(2, '0')]))"
    )
    numbers = "Object.fromEntries([...document.querySelectorAll('#netgraph tspan')].map(each => [each.dataset.event, each.textContent]))"
    suite.note("the netgraph", wanted, page.ask(numbers))
    page.drag([page.grip(1, "now"), page.minute(1, 12)], is_released=False)
    suite.note("a step of a drag", {**wanted, "1": "12"}, page.ask(numbers))
    page.key("Escape", 27)
    page.mouse("mouseReleased", *page.minute(1, 12))
    page.frame()
    page.ask("Page.showTab('diagram'); Page.choose(1)")
    ends = page.ask("[...document.querySelectorAll('#diagram text.end')].map(each => each.textContent)")
    trains = page.ask(
        "Page.view.lines[0].trains.map(train => [train.events[0], train.events[train.events.length - 1]]).flat()"
    )
    suite.note("the ends of trains", {"they": [wanted[str(event)] for event in trains]}, {"they": ends})
    # Each path of the line goes through the minutes of its train's events.
    left, width = page.across("diagram")
    ways = page.ask(
        "[...document.querySelectorAll('#diagram path[stroke-width=\"2.6\"]')].map(each => each.getAttribute('d'))"
    )
    minutes = {
        tuple(round((float(x) - left) / width * 60) % 60 for x in re.findall(r"[ML](-?[0-9.]+) ", way)) for way in ways
    }
    trains = page.ask("Page.view.lines[0].trains.map(train => train.events)")
    suite.note(
        "ways", {"they": {tuple(int(wanted[str(event)]) for event in train) for train in trains}}, {"they": minutes}
    )
    page.ask("Page.step(['fix 1 12'])")
    can = page.ask("document.querySelector('#diagram .can.chosen').getAttribute('d').match(/H/g).length")
    suite.note("what is possible", {"runs": 1}, {"runs": can})
    page.ask("Page.showTab('tables')")
    cells = page.ask(
        "[...document.querySelectorAll('#tables td')].map(each => each.textContent.replace('✕', '')).filter(Boolean)"
    )
    suite.note("the tables", {"minutes": sorted(wanted.values())}, {"minutes": sorted(cells)})
    page.ask("Page.showTab('diagram')")


def printed(suite: Suite, page: Hands) -> None:
    """On paper there is a timetable for each line, and nothing else."""
    page.ask("Page.openStory(Page.stories[0])")
    paper = base64.b64decode(page.call("Page.printToPDF", printBackground=True, preferCSSPageSize=True)["data"])
    pages = len(re.findall(rb"/Type\s*/Page\b", paper))
    suite.holds(f"from 3 to 10 pages, which are {pages}", 3 <= pages <= 10)
    page.ask("window.dispatchEvent(new Event('beforeprint'))")
    came = {
        "tables": page.ask("document.querySelectorAll('#printed .line table').length"),
        "diagrams": page.ask("document.querySelectorAll('#printed .line > svg').length"),
        "head": page.text("#printed h1"),
    }
    suite.note("lines", {"tables": 6, "diagrams": 6, "head": "A region of 112 events"}, came)
    page.ask("window.dispatchEvent(new Event('afterprint'))")
    page.show({"activities": TWO_TRAINS["activities"], "times": TWO_TRAINS["times"], "period": "10"})
    page.ask("window.dispatchEvent(new Event('beforeprint'))")
    suite.note(
        "without labels",
        {"rows": "event 1" + "00" + "any minute"},
        {"rows": page.ask("document.querySelector('#printed tbody tr').textContent")},
    )
    page.ask("window.dispatchEvent(new Event('afterprint'))")


GROUPS = [quiet, left, unstarted, said_of_itself, laid_out, drawn, printed]
