"""Files of other forms are opened, with a remark on the conversion; ambiguous ones are not."""

import pathlib
import tempfile
import zipfile
from typing import Any, Dict, List, Mapping, Tuple, Union

from page_tests.hands import TWO_TRAINS, Hands
from page_tests.untouched import placed
from tests.harness import Suite

HEADER = "activity; from; to; lower; upper; weight\n"
ROW = HEADER + "1; 1; 2; 3; 5; 2\n"
TABS = ROW.replace("; ", "\t")
UTF_16, TABBED, POINTS = "read as UTF-16", "tabs taken as separators", "decimal commas read as points"
NAMES = "event; line; to; station; kind\n1; Ü; Nürnberg; Fürth; departure\n2; Ü; Nürnberg; Nürnberg; arrival\n"


def given(page: Hands, files: Mapping[str, Union[bytes, str]]) -> None:
    """Drops existing files, by their bytes, on a page that nobody has touched."""
    page.again()
    with tempfile.TemporaryDirectory() as folder:
        paths = [pathlib.Path(folder) / name for name in files]
        for path, data in zip(paths, files.values(), strict=True):
            path.write_bytes(data if isinstance(data, bytes) else data.encode())
        page.drop(*paths)


def converted(suite: Suite, page: Hands) -> None:
    """Activities in other forms are the same activity, and a remark names the conversion."""
    activity = {"number": 1, "first": 1, "last": 2, "lower": 3, "upper": 5, "weight": 2}
    forms: List[Tuple[str, Union[bytes, str], str]] = [
        ("as it is", ROW, ""),
        ("UTF-16", ROW.encode("utf-16"), UTF_16),
        ("UTF-16, the greater byte first", b"\xfe\xff" + ROW.encode("utf-16-be"), UTF_16),
        ("UTF-16 without a mark", ROW.encode("utf-16-le"), UTF_16),
        ("tabs", TABS, TABBED),
        ("tabs after a mark, a comment and empty rows", f"\ufeff# a;\tb\n\n\t\t\n{TABS}\t\t\n", TABBED),
        ("a spreadsheet's text", TABS.replace("\n", "\r\n").encode("utf-16"), f"{UTF_16}, {TABBED}"),
        ("tabs and decimal commas", TABS.replace("3\t5\t2", "3,0\t5,00\t2,0"), f"{TABBED}, {POINTS}"),
        ("decimal commas", ROW.replace("3; 5; 2", '3,0;"5,00";2,0'), POINTS),
        ("a decimal comma among commas", "1,1,2,3,5,2,0\n", POINTS),
        ("a decimal comma in quotes", '1,1,2,3,5,"2,0"\n', POINTS),
        ("another column of them", ROW.replace("; ", ",").replace("3,5", "3,00,5"), POINTS),
        ("tabs beside semicolons", ROW.replace("; ", ";\t"), ""),
        ("tabs beside commas", ROW.replace("; ", ",\t"), ""),
        ("Windows-1252", b"# f\xfcr\n" + ROW.encode(), "read as Windows-1252"),
    ]
    for name, data, told in forms:
        given(page, {"activities": data, "period": "10"})
        said = "opened: activities, period" + (f" — activities: {told}" if told else "")
        came = {"said": page.said(), "activity": page.ask("Page.view.network.activities.get(1)")}
        suite.note(name, {"said": said, "activity": activity}, came)


def others(suite: Suite, page: Hands) -> None:
    """Files of times, windows, names and places are converted too, each with its remark."""
    files: Dict[str, Union[bytes, str]] = {
        "activities": TWO_TRAINS["activities"].replace("; ", "\t").encode("utf-16"),
        "times": "1; 0,0\n2; 3,0\n",
        "windows": "2\t3\t2\n",
        "labels": NAMES.encode("cp1252"),
        "places": "station; x; y\nFürth; 1,5; 2,125\nNürnberg; -3; 0,25\n",
        "period": "10\n".encode("utf-16"),
    }
    given(page, files)
    words = [
        f"activities: {UTF_16}, {TABBED}",
        f"times: {POINTS}",
        f"windows: {TABBED}",
        "labels: read as Windows-1252",
        f"places: {POINTS}",
        f"period: {UTF_16}",
    ]
    came = {
        "said": page.said().split(" — "),
        "name": page.text("#chosen-name"),
        "times": page.ask("[...Page.view.times]"),
        "windows": page.ask("[...Page.view.network.windows]"),
        "places": page.ask("[...Page.places]"),
    }
    wanted = {
        "said": [f"opened: {', '.join(files)}", *words],
        "name": "Ü to Nürnberg leaves Fürth",
        "times": [[1, 0], [2, 3]],
        "windows": [[2, {"first": 3, "length": 2}]],
        "places": [["Fürth", [1.5, 2.125]], ["Nürnberg", [-3, 0.25]]],
    }
    suite.note("all kinds", wanted, came)
    given(page, {**TWO_TRAINS, "labels": NAMES.replace("; ", "\t").replace("Fürth", '"F;\n""ü"""')})
    came = {"station": page.ask("Page.labels.events.get(1).station"), "word": page.said().split(" — ")[1:]}
    suite.note("a name in quotes", {"station": 'F;\n"ü"', "word": [f"labels: {TABBED}"]}, came)
    saved = page.ask("Page.filesToSave().activities")
    suite.note("what is saved is of the usual form", {"row": "1; 1; 2; 3; 5; 2"}, {"row": saved.splitlines()[1]})


def doubtful(suite: Suite, page: Hands) -> None:
    """An ambiguous number, and one that is not whole, is refused at its record, with a remedy."""
    for name, data, told, word in [
        ("thousands", f"{ROW}2; 2; 1; 4; 6; 1,000\n", "record 3: field 6 is not a number", "1,000 can be 1 or 1000."),
        ("a fraction", f"\n{TABS}2\t2\t1\t4\t6\t1,5\n", "record 3: weight has a fraction", ""),
        ("two columns", "1,1,2,0,0,5,0\n", "record 1: wrong number of fields", "It has decimal commas."),
        ("a row without one", "1,1,2,3,5,2,0\n2,2,1,4,6,1\n", "record 1: wrong number of fields", "It has decimal"),
        ("tabs in some rows", f"{ROW}2\t2\t1\t4\t6\t1\n", "record 3: wrong number of fields", "Tabs stand between"),
        ("a row of tabs", f"{TABS}# c\n\t\nx\t2\t1\t4\t6\t1\n", "record 5: field 1 is not a number", "Events and activities have numbers here."),
    ]:
        given(page, {"activities": data, "period": "10"})
        state, came = page.text("#title"), page.opening()
        wanted = {"told": f"activities file, {told}", "help": word, "title": "A region of 112 events"}
        shown = came["help"][: len(word)] if word else came["help"]
        suite.note(name, wanted, {"told": came["told"], "help": shown, "title": state})
    page.again()


def dropped(page: Hands, files: Dict[str, bytes]) -> Dict[str, Any]:
    """The dialog's message about some files with a period, on a page that nobody has touched."""
    page.again()
    with tempfile.TemporaryDirectory() as folder:
        for name, data in files.items():
            (pathlib.Path(folder) / name).write_bytes(data)
        page.drop(*(pathlib.Path(folder) / name for name in files), *placed(folder, {"period": "60\n"}))
        if page.ask("Page.find('opening').open") and not page.opening()["told"]:
            page.click(*page.middle("#opening .main"))
            page.until("Page.find('opening-fault').textContent !== ''")
        return page.opening()


def sheet() -> bytes:
    """The first bytes of a spreadsheet's file."""
    with tempfile.TemporaryDirectory() as folder:
        path = pathlib.Path(folder) / "sheet"
        with zipfile.ZipFile(path, "w") as archive:
            archive.writestr("[Content_Types].xml", "<Types/>")
        return path.read_bytes()


def other_forms(suite: Suite, page: Hands) -> None:
    """Files of other programs are explained: spreadsheets, LinTim's events, names instead of numbers, and half minutes."""
    row = b"1; 1; 2; 3; 5; 2\n"
    for name, files, told, word in [
        ("xlsx", {"activities.xlsx": sheet()}, "activities.xlsx is a spreadsheet in its own form, which is not read here", "Save each of its sheets as CSV"),
        ("ods", {"plan.ods": sheet()}, "plan.ods is a spreadsheet in its own form, which is not read here", "Save each of its sheets as CSV"),
        ("xls", {"times.xls": b"\xd0\xcf\x11\xe0\xa1\xb1\x1a\xe1" + bytes(600), "activities": row}, "times.xls is a spreadsheet in its own form, which is not read here", "Save each"),
        ("LinTim", {"activities": row, "Events-periodic.giv": b'1; "departure"; 1; 1; 0; >; 1\n'}, "events file, record 1: wrong number of fields", "A file of events has their numbers alone"),
        ("names", {"activities": b"activity;from;to;lower;upper;weight\n1; Ashford; Benton; 3; 5; 2\n"}, "activities file, record 2: field 2 is not a number", "Events and activities have numbers here."),
        ("half a minute", {"activities": b"1; 1; 2; 5,5; 9; 2\n"}, "activities file, record 1: field 4 is not a number", "5.5 is no whole number."),
        ("with a unit", {"activities": b"1; 1; 2; 3 min; 9; 2\n"}, "activities file, record 1: field 4 is not a number", "Write minutes as a whole number"),
    ]:
        came = dropped(page, files)
        suite.note(name, {"open": True, "told": told, "help": word}, {**came, "help": came["help"][: len(word)]})
    page.ask("document.querySelectorAll('dialog[open]').forEach(each => each.close())")


def whole_minutes(suite: Suite, page: Hands) -> None:
    """Numbers with a point before zeros, and clock times, are whole minutes, and a remark says so."""
    zeros, clock = "zeros after points left out", "times of the clock read as minutes"
    for name, rows, told in [
        ("zeros", "1.0; 1; 2.00; 3.0; 5; 2\n", zeros),
        ("a clock", "1; 1; 2; 0:03; 00:05; 2\n", clock),
        ("among commas, in quotes", '1,1,2,"3.0",0:05,2\n', f"{zeros}, {clock}"),
        ("tabs", "1\t1\t2\t3.0\t0:05\t2\n", f"tabs taken as separators, {zeros}, {clock}"),
        ("decimal commas", "1; 1; 2; 3,0; 0:05; 2\n", f"decimal commas read as points, {clock}"),
    ]:
        page.again()
        with tempfile.TemporaryDirectory() as folder:
            page.drop(*placed(folder, {"activities": rows, "times": "1; 0:07\n2; 10.0\n", "period": "60\n"}))
        page.until("Page.find('opening').open || Page.find('said').textContent.startsWith('opened')")
        activity = {"number": 1, "first": 1, "last": 2, "lower": 3, "upper": 5, "weight": 2}
        came = {"activity": page.ask("Page.view.network.activities.get(1)"), "times": page.ask("[...Page.view.times]"), "said": page.said().split(" — ")[1:]}
        wanted = {"activity": activity, "times": [[1, 7], [2, 10]], "said": [f"activities: {told}", f"times: {zeros}, {clock}"]}
        suite.note(name, wanted, came)


GROUPS = [converted, others, doubtful, other_forms, whole_minutes]
