"""Long texts of strangers, each of which the page reads in time proportional to its length, in files and in links."""

import json
import pathlib
import re
import shutil
import subprocess
import time
from typing import Any, Dict, List, Sequence

from page_tests.browser import Failed
from page_tests.hands import TWO_TRAINS, Hands
from page_tests.handing import fragment
from tests.harness import TOP, Suite, within

SCRIPTS = TOP / "page/script"
READERS = pathlib.Path(__file__).with_name("readers.mjs")
# A pattern as the scripts write it: never between blanks, like a division.
PATTERN = re.compile(r"(?<=[\s(=,:?&|!\[])/(?![/*\s])((?:\\.|\[(?:\\.|[^\]\\\n])*\]|[^/\\\n\[])+)/([dgimsuy]*)(?=[\s.,;)\]])")
# The limits of a fragment, in letters and in unpacked bytes.
MOST_LETTERS, MOST_BYTES = 30_000, 4_000_000
LENGTH = MOST_BYTES - 1_000
ANSWERED = "Page.find('opening').open || Page.find('said').textContent !== ''"


def told_by_node(suite: Suite, folder: str, *words: str) -> List[str]:
    """What readers.mjs writes in a folder with the page's modules."""
    there = suite.folder / folder
    shutil.copytree(SCRIPTS, there, dirs_exist_ok=True)
    shutil.copy(READERS, there)
    (there / "package.json").write_text('{"type": "module"}')
    done = subprocess.run(["node", READERS.name, *words], cwd=there, capture_output=True, text=True)
    return (done.stdout + done.stderr).splitlines()


@within(300)
def readers_of_long_texts(suite: Suite, page: Hands) -> None:
    """Each reader handles 4 MB within a processor second, and in proportion to the length."""
    if not shutil.which("node"):
        print("  nothing was tried of readers: node is not installed")
        return
    *slow, count = told_by_node(suite, "readers", "readers") or [""]
    suite.note("readers that are slow", {"they": []}, {"they": slow})
    suite.holds(f"they and texts: {count}", re.fullmatch(r"[0-9]{3,} tried", count))


def patterns_of(paths: Sequence[pathlib.Path]) -> List[Dict[str, Any]]:
    """The patterns that scripts have, each with its place."""
    found = []
    for path in paths:
        for number, line in enumerate(path.read_text().splitlines(), 1):
            if not line.lstrip().startswith("//"):
                places = PATTERN.finditer(line)
                found += [{"source": each[1], "flags": each[2], "where": f"{path.name}:{number}"} for each in places]
    return found


@within(300)
def patterns_in_one_pass(suite: Suite, page: Hands) -> None:
    """No pattern of the page has two ways to match, which would be tried one after another."""
    if not shutil.which("node"):
        print("  nothing was tried of patterns: node is not installed")
        return
    patterns = patterns_of([*sorted(SCRIPTS.rglob("*.js")), TOP / "page/module.js"])
    suite.holds(f"there are {len(patterns)}", len(patterns) > 30)
    (suite.folder / "patterns.json").write_text(json.dumps(patterns))
    *slow, count = told_by_node(suite, "patterns", "patterns", str(suite.folder / "patterns.json")) or [""]
    suite.note("patterns that are slow", {"they": [], "tried": f"{len(patterns)} tried"}, {"they": slow, "tried": count})


def processor_time(page: Hands) -> float:
    """The page's processor seconds."""
    metrics = {each["name"]: each["value"] for each in page.call("Performance.getMetrics")["metrics"]}
    return float(metrics["TaskDuration"])


TWO = {"activities": TWO_TRAINS["activities"], "period": "10"}
LINKS = {
    "650 letters": {"labels": f"event; line\n1; a{' ' * 300_000}b\n"},
    "blanks in a label": {"labels": f"event; line\n1; a{' ' * LENGTH}b\n"},
    "digits in a place": {"places": f"A; 1; {'1' * LENGTH}x\n"},
    "one long name": {"labels": f"event; line; to; station\n1; L; T; {'s' * LENGTH}\n"},
    "separators": {"labels": ";" * LENGTH},
    "quotes": {"labels": '"' * (LENGTH // 2)},
    "empty lines": {"labels": "\n" * (LENGTH // 2)},
    "blank lines": {"times": " \n" * (LENGTH // 3)},
    "digits": {"activities": "1" * LENGTH},
    "decimal commas": {"activities": "1;0,0" * (LENGTH // 5)},
    "commas": {"activities": "1," * (LENGTH // 2)},
    "tabs": {"times": "1\t" * (LENGTH // 3)},
    "a long period": {"period": "1" * LENGTH},
    "events": {"events": "".join(f"{event}\n" for event in range(10_000, 17_000))},
}


@within(300)
def long_links(suite: Suite, page: Hands) -> None:
    """A short link that unpacks to 4 MB is answered within seconds, whatever it repeats, and the page continues."""
    page.call("Performance.enable", timeDomain="threadTicks")
    for name, files in LINKS.items():
        link = fragment(json.dumps({f"a/{kind}": text for kind, text in {**TWO, **files}.items()}).encode())
        suite.holds(f"{name}: {len(link):,} letters", len(link) <= MOST_LETTERS)
        page.again()
        page.ask("Page.say('')")
        began, before = time.monotonic(), processor_time(page)
        page.call("Page.navigate", url=page.address + link)
        try:
            page.until(ANSWERED, 60)
        except Failed:
            suite.holds(f"{name}: it is answered", False)
            page.ask("0")
            continue
        took = processor_time(page) - before
        suite.holds(f"{name}: {took:.2f} s of a processor, {time.monotonic() - began:.2f} s in all", took < 2)
        page.ask("document.querySelectorAll('dialog[open]').forEach(each => each.close())")
        page.press("tab-lines")
        suite.holds(f"{name}: the page goes on", page.is_shown("view-lines"))
    page.call("Performance.disable")
    page.again()


GROUPS = [readers_of_long_texts, patterns_in_one_pass, long_links]
