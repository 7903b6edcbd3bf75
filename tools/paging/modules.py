"""The scripts of the page, which are ES modules: their imports and exports, in order and as one script.

A page from disk cannot load modules, so each becomes a function that is called once and returns its exports. Imported modules come
first, so there are no circular imports; and an export never gets another value, so that it may be taken by name.
"""

import pathlib
import re
from typing import Dict, List, NamedTuple, Sequence, Set

from paging.tree import NotMade

IMPORT = re.compile(r"^import \{(\s*\w+(?:,\s+\w+)*,?\s*)\} from '(\.\.?/(?:\w+/)?)(\w+)\.js';\n", re.M)
EXPORT = re.compile(r"^export (?=(?:const|class|function|async function) (\w+)\b)", re.M)
DECLARED = re.compile(r"^(?:const|let|class|function|async function) (\w+)\b", re.M)
# The beginning of a line that is neither an import nor an export of these forms.
OTHER = re.compile(r"^(?:import|export)\b.*", re.M)
# The object with the exports of each module in the page.
PARTS = "PESPBENCH"


class Script(NamedTuple):
    """A module: its name, its place below script/, its imports by modules, its exports, and the rest of its text."""

    name: str
    place: str
    imports: Dict[str, List[str]]
    exports: List[str]
    body: str


def refuse(place: str, what: str) -> None:
    raise NotMade(f"page/script/{place} {what}")


def twice(names: Sequence[str]) -> List[str]:
    return sorted({name for name in names if names.count(name) > 1})


def read(path: pathlib.Path, folder: pathlib.Path) -> Script:
    """The module in a file of a folder; all its imports are used, and exist at the given place."""
    name, text = str(path.relative_to(folder)), path.read_text()
    found = [(source, [word.strip() for word in names.split(",") if word.strip()]) for names, _, source in IMPORT.findall(text)]
    for _, way, source in IMPORT.findall(text):
        if not (path.parent / way / f"{source}.js").is_file():
            refuse(name, f"imports {way}{source}.js, which is not there")
    whole, ends = IMPORT.sub("", text), [0, *(each.end() for each in IMPORT.finditer(text))]
    if re.sub(r"^//.*", "", IMPORT.sub("", text[: ends[-1]]), flags=re.M).strip():
        refuse(name, "imports below something else than comments")
    exports, body = EXPORT.findall(whole), EXPORT.sub("", whole)
    for line in OTHER.findall(body):
        refuse(name, f"has a line of another form than tools/page reads: {line}")
    imported = [each for _, names in found for each in names]
    for each in twice(imported) + twice([source for source, _ in found]):
        refuse(name, f"imports {each} twice")
    code, declared = re.sub(r"^\s*//.*", "", body, flags=re.M), DECLARED.findall(body)
    for each in imported:
        if not re.search(rf"(?<![\w.$])(?<!\.\.\.){each}\b|\.\.\.{each}\b", code):
            refuse(name, f"imports {each}, and does not use it")
        if each in declared:
            refuse(name, f"declares {each}, which it imports")
    return Script(path.stem, name, dict(found), exports, body)


def scripts(folder: pathlib.Path) -> Dict[str, Script]:
    """All modules in a folder and below by their names; each import is another one's export, and no two export one name."""
    paths = sorted(folder.rglob("*.js"))
    for each in twice([path.stem for path in paths]):
        refuse(f"{each}.js", "is in more than one folder")
    found = {path.stem: read(path, folder) for path in paths}
    for each in twice([name for script in found.values() for name in script.exports]):
        _, *others = [script.place for script in found.values() if each in script.exports]
        refuse(others[0], f"exports {each}, as another module does")
    for script in found.values():
        for source, names in script.imports.items():
            for each in names:
                if source not in found or each not in found[source].exports:
                    refuse(script.place, f"imports {each} of {source}.js, which does not export it")
    return found


def below(found: Dict[str, Script], name: str) -> List[str]:
    """A module and all its direct and indirect imports, each after its own imports."""
    order: List[str] = []
    open_ones: List[str] = []

    def visit(each: str) -> None:
        if each in order:
            return
        if each in open_ones:
            refuse(found[each].place, f"needs itself: {' imports '.join([*open_ones[open_ones.index(each):], each])}")
        open_ones.append(each)
        for source in found[each].imports:
            visit(source)
        open_ones.pop()
        order.append(each)

    if name not in found:
        refuse(f"{name}.js", "is named in page/index.html, and is not there")
    visit(name)
    return order


def as_function(script: Script) -> str:
    """A module as a function that is called once and returns its exports."""
    taken = "".join(f"const {{ {', '.join(names)} }} = {PARTS}.{source};\n" for source, names in script.imports.items())
    given = f"return {{ {', '.join(script.exports)} }};\n" if script.exports else ""
    return f"{PARTS}.{script.name} = (() => {{\n{taken}{script.body}{given}}})();\n"


def joined(found: Dict[str, Script], name: str, there: Set[str]) -> str:
    """A module with all its imports that are not yet in the page, as one script; they are recorded."""
    start = "" if there else f"const {PARTS} = {{}};\n"
    wanted = [each for each in below(found, name) if each not in there]
    there.update(wanted)
    return f"'use strict';\n{start}{''.join(as_function(found[each]) for each in wanted)}"
