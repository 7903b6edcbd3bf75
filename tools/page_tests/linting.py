"""The sources of the page: types, lint, and what its modules share; and those of its tools. Missing checkers are reported."""

import os
import re
import shutil
import subprocess
import sys
from typing import Any, Sequence

from page_tests.hands import Hands
from paging.modules import below, scripts
from tests.harness import TOP, Suite, within

SCRIPTS = TOP / "page/script"
# Debian's modules, which other versions of Node do not search.
MODULES = "/usr/share/nodejs"
CHECKED = ["--noUnusedLocals", "--noUnusedParameters", "--noImplicitReturns", "--noImplicitThis", "--noFallthroughCasesInSwitch"]
CHECKED += ["--strictBindCallApply", "--strictFunctionTypes"]
# The modules that lay out drawings of others, and the most lines of all of them.
LAYING_OUT, MOST_DRAWING = ("captions", "places", "report", "routes", "spreading", "stretch", "tracks"), 2_000
# The folders of modules, each above those before it; the last are the modules outside of any.
ORDER = ["base", "session", "forms", "draw", "search", "files", "script"]
# A text that is an edit with its numbers, or precedes them.
EDIT = re.compile(r"""[`'"](?:(?:(?:add|drop) (?:event|activity)|span|weight|ends|fix|window|unfix|time|untime)(?: (?:\$\{[^}`]*\}|\d+))+ ?|(?:add|drop) (?:event|activity) )[`'"]""")
# The members of the interface in outside.js: `get name() ..`, `name: ..` and `name`.
GIVEN = re.compile(r"window\.Page = Object\.freeze\(\{(.*)\}\);", re.S)
MEMBER = re.compile(r"\bget (\w+)\(\)|(\w+): \w+,|(?<!: )\b(\w+),(?!\})")


def told_by(suite: Suite, what: str, command: Sequence[object], **how: Any) -> None:
    """Runs a checker, which prints nothing if all is right; False if it is not installed."""
    if not shutil.which(str(command[0])):
        print(f"  nothing was tried of {what}: {command[0]} is not installed")
        return
    env = {**os.environ, "NODE_PATH": MODULES, "PYTHONDONTWRITEBYTECODE": "1"}
    done = subprocess.run(list(map(str, command)), env=env, capture_output=True, text=True, **how)
    suite.note(what, {"status": 0, "told": []}, {"status": done.returncode, "told": (done.stdout + done.stderr).splitlines()[:20]})


@within(240)
def types_of_scripts(suite: Suite, page: Hands) -> None:
    """The scripts pass TypeScript's checker."""
    words = ["tsc", "--allowJs", "--checkJs", "--noEmit", "--target", "es2022", "--module", "es2022", "--moduleResolution", "node"]
    words += ["--lib", "es2022,dom,dom.iterable", *CHECKED]
    told_by(suite, "types of scripts", [*words, TOP / "page/types.d.ts", *sorted(SCRIPTS.rglob("*.js"))])


@within(120)
def lint_of_scripts(suite: Suite, page: Hands) -> None:
    """They and the module's caller pass eslint, by the rules of page/eslintrc.json."""
    words = ["eslint", "-f", "unix", "--no-eslintrc", "-c", TOP / "page/eslintrc.json"]
    told_by(suite, "lint of scripts", [*words, "page/script", "page/module.js"], cwd=TOP)


def what_scripts_share(suite: Suite, page: Hands) -> None:
    """Each export is imported by some module, each module is part of the page, and each member of the interface is used outside."""
    found, texts = scripts(SCRIPTS), {path.stem: path.read_text() for path in SCRIPTS.rglob("*.js")}
    taken = {name for script in found.values() for names in script.imports.values() for name in names}
    suite.note("exported, and not imported", {"they": []}, {"they": sorted({name for script in found.values() for name in script.exports} - taken)})
    entries = re.findall(r"<!-- modules: (\w+) -->", (TOP / "page/index.html").read_text())
    suite.note("modules of the page", {"they": sorted(found)}, {"they": sorted({name for entry in entries for name in below(found, entry)})})
    suite.note("imports that are not in order", {"they": []}, {"they": [each.name for each in found.values() if [*each.imports] != sorted(each.imports)]})
    users = [path for path in (TOP / "tools").rglob("*") if path.is_file() and (path.suffix == ".py" or "page" in path.name)]
    used = "".join(path.read_text() for path in [*users, *(TOP / "python/pespbench/report").glob("*.js")])
    given = GIVEN.search(texts["outside"])
    members = [name for names in MEMBER.findall(given[1] if given else "") for name in names if name]
    suite.note("given outside, and not used", {"they": []}, {"they": sorted(name for name in members if f"Page.{name}" not in used)})
    suite.holds("and there are some", len(members) > 50)
    suite.note("takes what is given outside", {"they": ["outside"]}, {"they": sorted(name for name, text in texts.items() if "window.Page" in text)})


def folders(suite: Suite, page: Hands) -> None:
    """A module imports only from its own folder and from those before it, and each folder has a short page that names its modules."""
    found, place = scripts(SCRIPTS), {path.stem: ORDER.index(path.parent.name) for path in SCRIPTS.rglob("*.js")}
    against = [f"{name} imports {each}" for name, script in found.items() for each in script.imports if place[each] > place[name]]
    suite.note("imports against the order of folders", {"they": []}, {"they": against})
    for name in ORDER[:-1]:
        text = (SCRIPTS / name / "README.md").read_text()
        named = [each for line in text.splitlines() if line.startswith("- ") for each in re.findall(r"`(\w+\.js)`", line)]
        suite.note(f"modules that {name}/README.md names", {"they": sorted(path.name for path in (SCRIPTS / name).glob("*.js"))}, {"they": sorted(named)})
        suite.holds(f"{name}/README.md has {len(text.splitlines())} lines", len(text.splitlines()) <= 40)


def words_of_edits(suite: Suite, page: Hands) -> None:
    """Only one module creates edits and has their words."""
    found = {path.stem: len(EDIT.findall(path.read_text())) for path in SCRIPTS.rglob("*.js")}
    suite.note("modules that write an edit", {"they": {}}, {"they": {name: count for name, count in found.items() if count}})
    texts = ["`fix ${event} 3`", "'add event '", '"time 3 4"', "['span 1 2 3']", "`add activity ${number} ${words.join(' ')} `"]
    suite.note("texts that are edits", {"they": texts}, {"they": [text for text in texts if EDIT.search(text)]})


def names_say_what(suite: Suite, page: Hands) -> None:
    """No thing in a script has a name that fits anything."""
    vague = re.compile(r"(?<![.\w])(?:lanes|ways|parts|shown|told)\b(?! *:)")
    code = {path.stem: re.sub(r"//[^\n]*|/[*].*?[*]/|'[^'\n]*'|\"[^\"\n]*\"|`[^`]*`", "", path.read_text(), flags=re.S) for path in SCRIPTS.rglob("*.js")}
    suite.note("vague names", {"they": {}}, {"they": {name: vague.findall(text) for name, text in code.items() if vague.search(text)}})


def drawn_once(suite: Suite, page: Hands) -> None:
    """The drawing modules, those that lay out for them, and the package's own for a report have few lines together."""
    found = scripts(SCRIPTS)
    drawing = [name for name, script in found.items() if "drawing" in script.imports.get("elements", ()) and name != "outside"]
    paths = [*(path for path in SCRIPTS.rglob("*.js") if path.stem in {*drawing, *LAYING_OUT}), *(TOP / "python/pespbench/report").glob("drawing.*")]
    count = sum(len(path.read_text().splitlines()) for path in paths)
    suite.holds(f"{len(drawing)} modules draw, and {len(paths)} files have {count} lines", len(drawing) > 8 and count <= MOST_DRAWING)


@within(120)
def tools_of_page(suite: Suite, page: Hands) -> None:
    """The page's build passes a type checker, and with its tests and the report a checker of names."""
    told_by(suite, "names in tools", ["pyflakes3", *(TOP / "tools" / name for name in ("page", "test_page", "measure_page", "paging", "page_tests")), TOP / "python/pespbench/report"])
    if shutil.which("mypy"):
        words = ["mypy", "--strict", "--python-version", "3.9", "--cache-dir", suite.folder / "types", "paging"]
        done = subprocess.run(list(map(str, words)), cwd=TOP / "tools", capture_output=True, text=True)
        suite.note("types of what makes the page", {"status": 0, "told": "Success"}, {"status": done.returncode, "told": done.stdout[:7] or done.stderr})
    else:
        print(f"  nothing was tried of types in tools: mypy is not installed for {sys.executable}")


GROUPS = [types_of_scripts, lint_of_scripts, what_scripts_share, folders, words_of_edits, names_say_what, drawn_once, tools_of_page]
