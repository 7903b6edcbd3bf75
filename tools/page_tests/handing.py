"""A network is handed over: under a name, by a link that contains it, and on paper."""

import base64
import json
import pathlib
import re
import tempfile
import time
import zlib

from page_tests.hands import TWO_TRAINS, Hands
from page_tests.keys import CTRL
from tests.harness import Suite

MOST_LETTERS, MOST_UNPACKED = 30_000, 4_000_000
NAMES = "[Page.session.opened.title, [...Page.places], [...Page.labels.events], [...Page.labels.kinds]]"

# The rows of all connections on paper.
CONNECTIONS = """[...document.querySelectorAll('#printed .connections tbody tr')]
    .map(row => [...row.cells].map(each => each.textContent))"""


def fragment(data: bytes) -> str:
    """The fragment of a link with these bytes."""
    packer = zlib.compressobj(9, zlib.DEFLATED, -15)
    packed = base64.urlsafe_b64encode(packer.compress(data) + packer.flush()).decode().rstrip("=")
    return f"#network={zlib.crc32(data):08x}.{packed}"


def linked(page: Hands) -> str:
    """The link in the dialog."""
    page.press("save")
    page.press("copy-link")
    page.until("Page.find('link-told').textContent !== ''")
    link: str = page.ask("Page.find('link-text').value")
    page.press("saving-close")
    return link


def reload(page: Hands) -> None:
    """Opens the address of the page in a new page."""
    page.ask("window.isOld = true")
    page.call("Page.reload")
    page.until("!window.isOld && document.body.classList.contains('ready')")


def named(suite: Suite, page: Hands) -> None:
    """A typed name is the page's, the archive's and its folder's, and returns with them."""
    page.again()
    with tempfile.TemporaryDirectory() as folder:
        page.call("Browser.setDownloadBehavior", behavior="allow", downloadPath=folder)
        page.press("save")
        page.fill("#saving-name", "Nürnberg: draft 3/b\n")
        for _ in range(600):
            if paths := list(pathlib.Path(folder).glob("*.zip")):
                break
            time.sleep(0.1)
        came = {"title": page.text("#title"), "files": [path.name for path in paths]}
        suite.note("saved by Enter", {"title": "Nürnberg: draft 3/b", "files": ["Nürnberg- draft 3-b.zip"]}, came)
        page.press("saving-close")
        page.again()
        page.drop(*paths)
        page.until("Page.find('said').textContent.startsWith('opened')")
        suite.note("opened", {"title": "Nürnberg- draft 3-b"}, {"title": page.text("#title")})
    page.press("save")
    page.fill("#saving-name", "another")
    page.key("Escape", 27)
    page.frame()
    left = {"title": page.text("#title"), "open": page.is_shown("saving")}
    suite.note("left by Escape", {"title": "Nürnberg- draft 3-b", "open": False}, left)
    page.resize(390, 844)
    for name, wanted in [("..", "network"), ("", "network"), ("a" * 120, "a" * 99), ('<b>"x"|', "b-x")]:
        page.press("save")
        page.fill("#saving-name", f" {name}")
        page.key("Tab", 9)
        page.press("saving-close")
        wide = page.ask("document.documentElement.scrollWidth - document.documentElement.clientWidth")
        suite.note(f"a name {name[:9]!r}", {"folder": wanted, "wide": 0}, {"folder": page.ask("Page.folderName()"), "wide": wide})
    page.resize(1440, 900)


def links_opened(suite: Suite, page: Hands) -> None:
    """A link opens as its network, in a new page and in an open one, and from the clipboard."""
    page.again()
    page.drag([page.minute(1, 20), page.minute(1, 30)])
    page.drag([page.grip(2, "now"), page.minute(2, 50)])
    wanted, lines = {"state": page.state(), "names": page.ask(NAMES)}, page.lines()
    link = linked(page)
    told = page.text("#link-told")
    suite.holds(f"the word: {told}", told.startswith(f"Copied: a link of {len(link):,} letters with the network in it."))
    suite.holds(f"of 112 events, {len(link)} letters", link.startswith(page.address + "#network=") and len(link) < 5_000)
    page.again()
    page.call("Page.navigate", url=link)
    page.until("Page.find('said').textContent.startsWith('opened')")
    suite.note("in a page that is open", wanted, {"state": page.state(), "names": page.ask(NAMES)})
    reload(page)
    page.until("Page.find('said').textContent.startsWith('opened')")
    suite.note("in a new page", wanted, {"state": page.state(), "names": page.ask(NAMES)})
    said = "opened: activities, fixed, windows, events, times, period, labels, places"
    suite.note("what is said", {"said": said}, {"said": page.said()})
    suite.note("nothing is to be saved", {"lines": [], "saved": True}, {"lines": page.lines(), "saved": page.ask("Page.isSaved()")})
    suite.holds("the address has it", page.ask("location.href") == link)
    page.show(TWO_TRAINS)
    suite.note("and not when another is open", {"address": page.address}, {"address": page.ask("location.href")})
    page.ask("Page.say('')")
    page.press("open")
    page.click(*page.middle("#opening-link"))
    page.call("Input.dispatchKeyEvent", type="keyDown", key="v", windowsVirtualKeyCode=86, modifiers=CTRL, commands=["paste"])
    page.until("Page.find('said').textContent.startsWith('opened')")
    came = {"state": page.state(), "names": page.ask(NAMES), "open": page.opening()["open"]}
    suite.note("pasted", {**wanted, "open": False}, came)
    suite.holds("steps were made for it", len(lines) == 2)


def link_asked(suite: Suite, page: Hands) -> None:
    """A link on unsaved work is opened only by a click."""
    page.again()
    link = linked(page)
    page.show(TWO_TRAINS)
    page.drag([page.minute(1, 2), page.minute(1, 5)])
    page.call("Page.navigate", url=link)
    page.until("Page.find('opening').open")
    came = {"lines": page.lines(), "loss": page.is_shown("opening-loss"), "size": page.text("#size")}
    suite.note("asked", {"lines": ["fix 1 5"], "loss": True, "size": "2 events, 2 activities, period 10"}, came)
    page.click(*page.middle("#opening-form .main"))
    page.until("Page.find('said').textContent.startsWith('opened')")
    suite.note("given up", {"title": "A region of 112 events"}, {"title": page.text("#title")})


def link_of_names(suite: Suite, page: Hands) -> None:
    """A link of labels alone, which would change the names of the open network, is opened only by a click, with a remark."""
    page.again()
    page.show(TWO_TRAINS)
    before = page.ask(NAMES)
    page.ask("Page.say('')")
    page.call("Page.navigate", url=page.address + fragment(json.dumps({"a/labels": "event; line\n1; R9\n"}).encode()))
    page.until("Page.find('opening').open || Page.find('said').textContent !== ''")
    page.frame()
    came = {"open": page.opening()["open"], "names": page.ask(NAMES), "word": page.opening()["help"][:27]}
    suite.note("asked", {"open": True, "names": before, "word": "The link has names alone: t"}, came)
    page.click(*page.middle("#opening-form .main"))
    page.until("Page.find('said').textContent.startsWith('opened')")
    suite.note("added", {"line": "R9"}, {"line": page.ask("Page.labels.events.get(1).line")})
    page.again()


def links_refused(suite: Suite, page: Hands) -> None:
    """Links that are too long, damaged, bombs or not networks are refused with a remark, and nothing is lost."""
    page.again()
    page.show(TWO_TRAINS)
    page.drag([page.minute(1, 2), page.minute(1, 5)])
    good = fragment(json.dumps({"a/activities": TWO_TRAINS["activities"], "a/period": "10"}).encode())
    middle = len(good) // 2
    other = "B" if good[middle] != "B" else "C"
    damaged, strange = "it is damaged, or not whole", "it has no network of this page"
    cases = [
        ("too long", "#network=00000000." + "A" * MOST_LETTERS, f"it has {MOST_LETTERS + 18:,} letters, and may have 30,000"),
        ("a bomb", fragment(b" " * 20_000_000), f"it unpacks to more than {MOST_UNPACKED:,} bytes"),
        ("a letter changed", good[:middle] + other + good[middle + 1 :], damaged),
        ("cut", good[:-4], damaged),
        ("another check", f"#network={int(good[9:17], 16) ^ 1:08x}{good[17:]}", damaged),
        ("nothing", "#network=", damaged),
        ("no base 64", "#network=00000000.%3Cscript%3E", damaged),
        ("no JSON", fragment(b"<script>hostile=1</script>"), strange),
        ("a list", fragment(b"[[]]"), strange),
        ("null", fragment(b"null"), strange),
        ("other files", fragment(b'{"a/other":"1"}'), strange),
        ("no texts", fragment(b'{"a/activities":{"b":1}}'), strange),
        ("a long name", fragment(json.dumps({f"{'a' * 101}/activities": "1; 1; 2; 3; 5; 2"}).encode()), strange),
        ("an archive in it", fragment(b'{"a/b.zip":"PK"}'), strange),
    ]
    for name, place, told in cases:
        page.ask("Page.say('')")
        page.call("Page.navigate", url=page.address + place)
        page.until("Page.find('said').textContent !== ''")
        came = {"told": page.said(), "lines": page.lines(), "address": page.ask("location.href")}
        wanted = {"told": f"The link cannot be opened: {told}.", "lines": ["fix 1 5"], "address": page.address}
        suite.note(name, wanted, came)
    page.press("undo")
    suite.note("and the page goes on", {"lines": []}, {"lines": page.lines()})
    page.press("open")
    page.fill("#opening-link", "x")
    suite.holds("no link", page.opening()["told"].startswith("This is no link"))
    page.press("opening-close")
    page.ask(f"history.replaceState(null, '', {json.dumps(cases[2][1])})")
    reload(page)
    page.until("Page.find('said').textContent.startsWith('The link')")
    suite.note("in a new page", {"title": "A region of 112 events"}, {"title": page.text("#title")})
    unmet = fragment(json.dumps({"a/activities": "1; 1; 2; 5; 3; 2\n", "a/period": "10"}).encode())
    page.call("Page.navigate", url=page.address + unmet)
    page.until("Page.find('opening').open")
    suite.note("a fault in it", {"told": "activities file, record 1: lower bound above upper bound"}, {"told": page.opening()["told"]})


def too_large(suite: Suite, page: Hands) -> None:
    """A network that is too large for a link is reported, and gives none."""
    page.again()
    rows = ((each, each * 7919 % 50_000, each * 104_729 % 50_000 + 50_000, each * 31 % 997) for each in range(9_000))
    page.show({"activities": "".join("%d; %d; %d; 3; 5; %d\n" % row for row in rows), "period": "60"})
    page.press("save")
    page.press("copy-link")
    page.until("Page.find('link-told').textContent !== ''")
    told = page.text("#link-told")
    suite.holds(f"it is told: {told}", re.match(r"The network is too large for a link: [0-9,]+ letters, of 30,000 letters\. ", told))
    suite.note("no link", {"shown": False}, {"shown": page.is_shown("link-text")})
    page.press("saving-close")


def link_without(suite: Suite, page: Hands) -> None:
    """Without a clipboard the link is copied as a selection is, and a browser that cannot pack says so."""
    page.again()
    page.ask("Object.defineProperty(navigator, 'clipboard', { value: undefined }); 0")
    linked(page)
    suite.holds("a selection", page.text("#link-told").startswith("Copied: a link of "))
    page.ask("document.execCommand = () => false; 0")
    linked(page)
    came = {"told": page.text("#link-told")[:18], "selected": page.ask("Page.find('link-text').selectionEnd > 3000")}
    suite.note("neither", {"told": "Copy it from here:", "selected": True}, came)
    page.ask("window.CompressionStream = undefined")
    linked(page)
    suite.note("no packing", {"told": "This browser cannot pack a link."}, {"told": page.text("#link-told")})
    page.again()


def on_paper(suite: Suite, page: Hands) -> None:
    """Paper has the name, the date, the netgraph with its times, and the connections of each station."""
    page.again()
    page.press("tab-netgraph")
    screen = page.ask("Page.find('netgraph').innerHTML")
    page.press("save")
    page.fill("#saving-name", "Draft 7")
    page.key("Tab", 9)
    page.press("saving-close")
    page.ask("window.dispatchEvent(new Event('beforeprint'))")
    date = page.ask("new Date().toLocaleDateString('en-GB', { day: 'numeric', month: 'long', year: 'numeric' })")
    came = {"name": page.text("#printed h1"), "date": page.text("#printed .date")}
    suite.note("name and date", {"name": "Draft 7", "date": f"Printed on {date}"}, came)
    numbers = "Object.fromEntries([...document.querySelectorAll('#printed tspan')].map(each => [each.dataset.event, each.textContent]))"
    times = "Object.fromEntries([...Page.view.times].map(([event, time]) => [event, String(time).padStart(2, '0')]))"
    suite.note("the netgraph", page.ask(times), page.ask(numbers))
    suite.holds("no event is chosen on it", page.ask("!document.querySelector('#printed tspan.chosen')"))
    rows = page.ask(CONNECTIONS)
    found = page.ask("""[...Page.view.network.activities.values()].filter(each => Page.labels.kinds.get(each.number) === 'change')
        .map(each => [each.first, each.last].map(event => String(Page.view.times.get(event)).padStart(2, '0')).concat(
            String(Page.view.tensions.get(each.number).tension), `${each.lower} to ${each.upper}`))""")
    suite.note("each connection", {"they": sorted(found)}, {"they": sorted([row[1], row[3], row[4], row[5]] for row in rows)})
    suite.holds(f"of which there are {len(rows)}", len(rows) > 10)
    stations = page.ask("[...document.querySelectorAll('#printed .connections h3')].map(each => each.textContent)")
    suite.note("by stations", {"they": sorted(set(stations))}, {"they": stations})
    page.ask("window.dispatchEvent(new Event('afterprint'))")
    suite.holds("the screen is as it was", page.ask("Page.find('netgraph').innerHTML") == screen)
    paper = base64.b64decode(page.call("Page.printToPDF", printBackground=True, preferCSSPageSize=True)["data"])
    boxes = [tuple(map(float, box)) for box in re.findall(rb"/MediaBox\s*\[\s*0 0 ([0-9.]+) ([0-9.]+)\s*\]", paper)]
    suite.note("one page lies", {"lying": 1}, {"lying": sum(width > height for width, height in boxes)})
    suite.holds("nothing of it is left on the screen", page.text("#printed") == "")
    page.press("tab-diagram")


def unmet_on_paper(suite: Suite, page: Hands) -> None:
    """A connection that is not met is marked on paper, and one without times has none."""
    events = "1; A; X; S; arrival\n2; B; Y; S; departure\n3; A; X; S; departure\n"
    labels = f"event; line; to; station; kind\n{events}activity; kind\n1; change\n2; dwell\n3; headway\n"
    texts = {"activities": "1; 1; 2; 3; 5; 1\n2; 1; 3; 1; 9; 1\n3; 1; 2; 0; 9; 1\n", "labels": labels, "period": "10"}
    for name, times, row in [
        ("not met", "1; 0\n2; 8\n3; 2\n", ["A to X", "00", "B to Y", "08", "8 ✕", "3 to 5"]),
        ("no times", "", ["A to X", "–", "B to Y", "–", "–", "3 to 5"]),
    ]:
        page.show({**texts, "times": times})
        page.ask("window.dispatchEvent(new Event('beforeprint'))")
        rows = page.ask(CONNECTIONS)
        suite.note(name, {"rows": [row]}, {"rows": rows})
        page.ask("window.dispatchEvent(new Event('afterprint'))")


GROUPS = [named, links_opened, link_asked, link_of_names, links_refused, too_large, link_without, on_paper, unmet_on_paper]
