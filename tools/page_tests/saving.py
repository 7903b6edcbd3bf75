"""Saved files, and the stories that the page can start with."""

import base64
import io
import json
import pathlib
import tempfile
import time
import zipfile

from page_tests.hands import TWO_TRAINS, Hands
from page_tests.opening import EXAMPLES, drop, forget
from pespbench import Labels, files
from pespbench.drawn import draw_region
from pespbench.report import read_places
from tests.harness import Suite


def saving(suite: Suite, page: Hands) -> None:
    """Saved files read as the state shown: in the page, by the Python package, and from an archive."""
    forget(page)
    page.ask("Page.openStory(Page.stories[0])")
    page.ask(
        """for (const line of ['window 3 50 20', 'fix 2 40', 'add event 900', 'time 900 7', 'window 900 3 9', 'span 1 -3 20'])
            Page.step([line]);"""
    )
    state = page.state()
    saved = page.ask("Page.filesToSave()")
    page.show(saved)
    suite.holds("opened again", page.state() == state)
    with tempfile.TemporaryDirectory() as name:
        folder = pathlib.Path(name)
        for file, text in saved.items():
            (folder / file).write_text(text)
        came = {
            "activities": len(files.read_activities(folder / "activities")),
            "fixed": files.read_times(folder / "fixed"),
            "events": files.read_events(folder / "events"),
            "windows": {
                event: (window.first, window.length) for event, window in files.read_windows(folder / "windows").items()
            },
            "labels": len(Labels.read(folder / "labels").events),
            "times": files.read_times(folder / "times")[900],
        }
    wanted = {
        "activities": 145,
        "fixed": {2: 40},
        "events": [900],
        "windows": {3: (50, 20), 900: (3, 9)},
        "labels": 112,
        "times": 7,
    }
    suite.note("read by the Python package", wanted, came)
    packed = base64.b64decode(
        page.ask(
            """(async () => {
        const files = { activities: '1; 1; 2; 3; 5; 2\\n', period: '10\\n', labels: 'event\\n1; ü\\n' };
        const placed = Object.fromEntries(Object.entries(files).map(([name, text]) => [`a folder/${name}`, text]));
        return btoa(String.fromCharCode(...new Uint8Array(await Page.zipOf(placed).arrayBuffer())));
    })()"""
        )
    )
    with zipfile.ZipFile(io.BytesIO(packed)) as archive:
        came = {
            "sound": archive.testzip(),
            "labels": archive.read("a folder/labels").decode(),
            "names": archive.namelist(),
        }
    suite.note(
        "an archive",
        {
            "sound": None,
            "labels": "event\n1; ü\n",
            "names": ["a folder/activities", "a folder/period", "a folder/labels"],
        },
        came,
    )
    forget(page)
    drop(page, {"a.zip": packed})
    suite.note(
        "opened from it",
        {"title": "a folder", "events": 2},
        {"title": page.text("#title"), "events": page.ask("Page.view.network.events.length")},
    )
    pressed = io.BytesIO()
    with zipfile.ZipFile(pressed, "w", zipfile.ZIP_DEFLATED) as archive:
        archive.writestr("b/activities", "1; 1; 2; 3; 5; 2\n" * 1 + "2; 2; 3; 3; 5; 2\n")
        archive.writestr("b/period", "12\n")
    forget(page)
    drop(page, {"b.zip": pressed.getvalue()})
    suite.note(
        "one that another tool made",
        {"title": "b", "period": 12},
        {"title": page.text("#title"), "period": page.ask("Page.view.network.period")},
    )
    page.show(TWO_TRAINS)
    page.ask("Page.step(['fix 1 0']); Page.step(['span 1 3 4'])")
    script = page.ask("Page.ask(['dump'])[0].join('\\n')")
    page.show({"lines": script, "period": "10"})
    suite.note("the script", {"script": script}, {"script": page.ask("Page.ask(['dump'])[0].join('\\n')")})


def archived(suite: Suite, page: Hands) -> None:
    """A saved archive opens with the network, its times, names and places, in the page and in the package."""
    page.again()
    page.drag([page.minute(1, 20), page.minute(1, 30)])
    page.drag([page.grip(2, "now"), page.minute(2, 50)])
    names = "[[...Page.places], [...Page.labels.events]]"
    wanted = {"state": page.state(), "names": page.ask(names)}
    with tempfile.TemporaryDirectory() as name:
        folder = pathlib.Path(name)
        page.call("Browser.setDownloadBehavior", behavior="allow", downloadPath=name)
        page.press("save")
        page.press("save-all")
        for _ in range(600):
            if list(folder.glob("*.zip")):
                break
            time.sleep(0.1)
        [path] = folder.glob("*.zip")
        page.press("saving-close")
        page.again()
        page.drop(path)
        page.until("Page.find('said').textContent.startsWith('opened')")
        suite.note("in the page", wanted, {"state": page.state(), "names": page.ask(names)})
        with zipfile.ZipFile(path) as archive:
            archive.extractall(folder)
        read = [[station, list(place)] for station, place in read_places(folder / path.stem / "places").items()]
    suite.note("in the package", {"places": wanted["names"][0]}, {"places": read})
    named = {"A; B": [1.5, -2], '"C" # D': [1e-7, 3], "E": [0, 1e21]}
    page.ask(f"Page.openTexts({{ ...Page.filesToSave(), places: Page.placesText(new Map(Object.entries({json.dumps(named)}))) }}, 'named')")
    with tempfile.TemporaryDirectory() as name:
        path = pathlib.Path(name) / "places"
        path.write_text(page.ask("Page.filesToSave().places"))
        came = {station: list(place) for station, place in read_places(path).items()}
    suite.note("names of all kinds", {"places": named}, {"places": came})
    came = page.ask("[...Page.readPlaces('# a comment\\n' + Page.placesText(new Map([['#E', [1, 2]]])))]")
    suite.note("a name that begins as a comment", {"places": [["#E", [1, 2]]]}, {"places": came})
    page.again()


def stories(suite: Suite, page: Hands) -> None:
    """The stories in the page are the examples', and the region that the package generates."""
    kept = {story["title"]: story["texts"] for story in page.ask("Page.stories")}
    two, night, region = (
        kept["Two changes at Benton"],
        kept["A night train and a freight path"],
        kept["A region of 112 events"],
    )
    suite.note(
        "two changes",
        {name: (EXAMPLES / "two-changes" / name).read_text() for name in ("activities", "fixed", "labels", "period")},
        two,
    )
    commands = (EXAMPLES / "night-train/commands").read_text().splitlines()
    lines = "".join(f"{line}\n" for line in commands if line.startswith(("add", "window")))
    wanted = {name: (EXAMPLES / "night-train" / name).read_text() for name in ("activities", "fixed")}
    suite.note("the night train", {**wanted, "lines": lines}, night)
    with tempfile.TemporaryDirectory() as name:
        draw_region(3).save(pathlib.Path(name))
        drawn = {file: (pathlib.Path(name) / file).read_text() for file in ("activities", "times", "labels", "places")}
    suite.note("the region", drawn, region)


GROUPS = [saving, archived, stories]
