"""Archives and long files of strangers: the contents are counted and checked before opening, and long work can be stopped."""

import pathlib
import tempfile
import time
import zipfile
from typing import List

from page_tests.hands import TWO_TRAINS, Hands
from page_tests.untouched import placed
from tests.harness import Suite, patient, within

LONGEST = 67_108_864
OPENED = "Page.find('opening').open || Page.find('said').textContent.startsWith('opened')"
UNREAD = "The files cannot be read: "
# The memory that the page may use for a file of the greatest length, and that its browser uses itself.
MOST_MEMORY = 500_000_000
SECONDS = 240


def archived(path: pathlib.Path, files: List[str], method: int = zipfile.ZIP_DEFLATED) -> pathlib.Path:
    """An archive that has the two trains, and empty files by their names."""
    with zipfile.ZipFile(path, "w", method) as archive:
        for name in ("activities", "times", "period"):
            archive.writestr(f"two/{name}", TWO_TRAINS[name])
        for name in files:
            archive.writestr(name, b"")
    return path


def dropped(page: Hands, path: pathlib.Path) -> str:
    """The dialog's message about an archive; '' if it is opened."""
    page.again()
    page.drop(path)
    page.until(OPENED)
    told: str = page.opening()["told"]
    return told


def changed(path: pathlib.Path, old: bytes, new: bytes, is_last: bool = False) -> pathlib.Path:
    """The archive with some of its bytes replaced, at their first or last occurrence."""
    data = path.read_bytes()
    place = data.rfind(old) if is_last else data.find(old)
    path.write_bytes(data[:place] + new + data[place + len(old) :])
    return path


@within(120)
def archives_counted(suite: Suite, page: Hands) -> None:
    """The files of an archive are counted, and their bytes summed, before any is unpacked."""
    with tempfile.TemporaryDirectory() as name:
        folder = pathlib.Path(name)
        for count, told in [(997, ""), (998, f"{UNREAD}there are more than 1,000."), (60_000, f"{UNREAD}there are more than 1,000.")]:
            path = archived(folder / "two.zip", [f"two/more{number}" for number in range(count)])
            began = time.monotonic()
            came = dropped(page, path)
            # Files of no kind are asked for.
            suite.note(f"{count} empty files beside three", {"told": told}, {"told": came})
            suite.holds(f"answered in {time.monotonic() - began:.1f} s", time.monotonic() - began < patient(SECONDS) / 4)
        with zipfile.ZipFile(folder / "long.zip", "w", zipfile.ZIP_DEFLATED) as archive:
            archive.writestr("a/period", "10")
            for number in range(100):
                archive.writestr(f"a/{number}", b" " * (1 << 22))
        began = time.monotonic()
        told = f"{UNREAD}its files have more than {4 * LONGEST:,} bytes together."
        suite.note("400 MB in all", {"told": told}, {"told": dropped(page, folder / "long.zip")})
        suite.holds(f"told in {time.monotonic() - began:.1f} s", time.monotonic() - began < 10)


def archives_checked(suite: Suite, page: Hands) -> None:
    """A damaged archive is reported, with its file, and is not opened."""
    one, two = b"1; 1; 2; 3; 5; 2", b"1; 1; 2; 3; 6; 2"
    with tempfile.TemporaryDirectory() as name:
        path, stored, packed = pathlib.Path(name) / "two.zip", zipfile.ZIP_STORED, zipfile.ZIP_DEFLATED
        damaged = f"{UNREAD}two/activities is damaged."
        cases = [
            ("nothing", packed, b"two/activities", b"two/activities", ""),
            ("stored", stored, one, one, ""),
            ("a digit", stored, one, two, damaged),
            ("its mark", stored, b"PK\3\4", b"PK\3\5", damaged),
            ("the list", stored, b"PK\1\2", b"PK\1\3", f"{UNREAD}its list is damaged after 0 files."),
            ("the end", stored, b"PK\5\6", b"PK\5\7", f"{UNREAD}it is no archive of the kind zip."),
            ("the method", packed, b"PK\1\2\x14\3\x14\0\0\0\x08", b"PK\1\2\x14\3\x14\0\0\0\x09", f"{UNREAD}two/activities is packed in a way that is not known here."),
        ]
        for title, method, old, new, told in cases:
            suite.holds(f"{title}: it is there", old in archived(path, [], method).read_bytes())
            suite.note(title, {"told": told}, {"told": dropped(page, changed(path, old, new))})
        archived(path, [], packed)
        data = path.read_bytes()
        place = data.find(b"two/activities") + len(b"two/activities")
        path.write_bytes(data[:place] + bytes([data[place] ^ 7]) + data[place + 1 :])
        suite.note("what is packed", {"told": damaged}, {"told": dropped(page, path)})
        # Each entry of the directory is the first file of the archive, and so its bytes are many times those of the archive.
        bomb = pathlib.Path(name) / "bomb.zip"
        with zipfile.ZipFile(bomb, "w", packed) as archive:
            for number in range(200):
                archive.writestr(f"b/{number:03}", b"x" * 100_000 if number == 0 else b"")
        data = bomb.read_bytes()
        at = data.find(b"PK\1\2")
        first = data[at : at + 46]
        parts = [first + f"b/{number:03}".encode() for number in range(200)]
        end = bytearray(data[data.rfind(b"PK\5\6") :])
        listed = b"".join(parts)
        end[12:16] = len(listed).to_bytes(4, "little")
        bomb.write_bytes(data[:at] + listed + bytes(end))
        suite.note("files that share bytes", {"told": f"{UNREAD}its list is damaged."}, {"told": dropped(page, bomb)})
        page.again()


def memory_of(page: Hands, is_anew: bool = False) -> int:
    """The peak memory of the process that draws the page since the last reset, after the garbage of earlier pages is collected."""
    if is_anew:
        page.call("HeapProfiler.collectGarbage")
    session, page._session = page._session, None
    processes = page.call("SystemInfo.getProcessInfo")["processInfo"]
    page._session = session
    most = 0
    for process in processes:
        if process["type"] == "renderer":
            place = pathlib.Path(f"/proc/{process['id']}")
            if is_anew:
                (place / "clear_refs").write_text("5")
            found = [line.split() for line in (place / "status").read_text().splitlines() if line.startswith("VmHWM")]
            most = max([most, *(1024 * int(words[1]) for words in found)])
    return most


@within(600)
def long_conversions(suite: Suite, page: Hands) -> None:
    """Files of 64 MiB are converted while the page is usable, and can be stopped, within 500 MB."""
    quotes = b"event\tline\n1\t" + b'"' * (LONGEST - 20)
    forms = {
        "tabs": ("activities", b"1\t1\t2\t3\t5\t2\n" * (LONGEST // 12), "activities file, record 2: activity number is repeated"),
        "quotes": ("labels", quotes, "labels file, record 2: field 2 is longer than 1,000 letters"),
    }
    for form, (kind, data, told) in forms.items():
        with tempfile.TemporaryDirectory() as name:
            given = placed(name, {"activities": TWO_TRAINS["activities"], "period": "10"})
            (pathlib.Path(name) / kind).write_bytes(data)
            given = list({*given, pathlib.Path(name) / kind})
            page.again()
            page.drop(*given)
            came = {"stop": page.is_shown("stop"), "found": page.text("#found")}
            suite.note(f"{form}: it can be stopped", {"stop": True, "found": "Reading the files …"}, came)
            page.click(*page.minute(3, 20))
            page.frame()
            suite.note(f"{form}: the page is usable", {"chosen": 3}, {"chosen": page.ask("Page.chosen")})
            page.press("stop")
            suite.note("stopped", {"said": "the opening was stopped, and nothing has changed"}, {"said": page.said()})
            page.again()
            memory_of(page, True)
            page.drop(*given)
            began = time.monotonic()
            page.until("Page.find('stop').hidden", SECONDS)
            converted = memory_of(page)
            page.until("Page.find('opening').open", SECONDS)
            memory = memory_of(page)
            suite.note(f"{form}: an answer", {"told": told}, {"told": page.opening()["told"]})
            words = f"{form}: {time.monotonic() - began:.1f} s, {converted / 1e6:.0f} MB, and once the program has read it {memory / 1e6:.0f} MB"
            print(f"  {words}")
            suite.holds(words, max(converted, memory) < MOST_MEMORY)
    page.again()


GROUPS = [archives_counted, archives_checked, long_conversions]
