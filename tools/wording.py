"""The words that docs/STYLE.md avoids, and where documents use them. Code, links and quoted sessions do not count."""

import pathlib
import re
from typing import Dict, List, NamedTuple

ROW = re.compile(r"^- (?P<words>`[a-z ]+`(?:, `[a-z ]+`)*): (?P<better>[a-z, ]+)$", re.M)
# Text that is not prose: blocks and pieces of code, and the targets of links.
BLOCK = re.compile(r"^```.*?^```$", re.M | re.S)
PIECE = re.compile(r"`[^`]*`|\]\([^)]*\)")


class Use(NamedTuple):
    """An avoided word in a line of a text."""

    line: int
    word: str


def avoided(style: str) -> Dict[str, str]:
    """Each word that the style avoids, with the words to use."""
    rows = [(row["words"], row["better"]) for row in ROW.finditer(style)]
    return {word: better for words, better in rows for word in re.findall(r"`([^`]+)`", words)}


def prose_of(text: str) -> str:
    """A document without its code, in as many lines."""
    return PIECE.sub("", BLOCK.sub(lambda block: "\n" * block[0].count("\n"), text))


def uses(text: str, words: Dict[str, str]) -> List[Use]:
    """The avoided words of a document, in its order."""
    pattern = re.compile(rf"\b({'|'.join(map(re.escape, words))})\b", re.I)
    lines = prose_of(text).split("\n")
    return [Use(number, match[0].lower()) for number, line in enumerate(lines, 1) for match in pattern.finditer(line)]


def documents(top: pathlib.Path) -> List[pathlib.Path]:
    """Each document of a tree and its manual pages, except those of a build."""
    built = {"out", ".git", "build"}
    found = [*top.rglob("*.md"), *top.glob("man/*.1")]
    return sorted(path for path in found if not built & set(path.relative_to(top).parts))
