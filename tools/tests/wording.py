"""The words of documents, compared with docs/STYLE.md; tools/avoided_words lists the differences."""

from tests.harness import TOP, Suite
from wording import Use, avoided, documents, uses

# A style, and a text of which only the words outside of code count.
STYLE = """- `told`, `tells`: returns
- `so many`: the number
- A rule: of no word.
"""
TEXT = """What `told` is [told](tells.md) here.
```console
$ tells
```
So many of them, retold.
"""


def avoided_words(suite: Suite) -> None:
    """No document has a word that STYLE avoids."""
    words = avoided((TOP / "docs/STYLE.md").read_text())
    suite.holds("STYLE avoids words", len(words) > 20)
    for path in documents(TOP):
        found = uses(path.read_text(), words)
        suite.note(f"avoided words of {path.relative_to(TOP)}", {"uses": []}, {"uses": found})


def avoided_words_found(suite: Suite) -> None:
    """Words are found only in prose, whatever their case."""
    words = avoided(STYLE)
    suite.note("the words of a style", {"words": {"told": "returns", "tells": "returns", "so many": "the number"}}, {"words": words})
    suite.note("where a text has them", {"uses": [Use(1, "told"), Use(5, "so many")]}, {"uses": uses(TEXT, words)})


GROUPS = [avoided_words, avoided_words_found]
