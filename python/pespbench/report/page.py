"""The report as one page of HTML: the page of the repository, which sends no requests, with the content inside."""

from __future__ import annotations

import json
import os
from pathlib import Path

from pespbench.beside import place_of
from pespbench.report.gathering import Content

NAME = "pespbench.html"
# The placeholder of the page for a report's content.
EMPTY = '<script type="application/json" id="given"></script>'


class NoPage(OSError):
    """The page is missing."""


def page_of(content: Content) -> str:
    """The whole page. Raises NoPage."""
    before, mark, after = page_text().partition(EMPTY)
    if not mark:
        raise NoPage(f"{page_path()} is no page of this version: it has no place for a report")
    return f"{before}{mark[: -len('</script>')]}{written(content)}</script>{after}"


def written(content: Content) -> str:
    """The content in ASCII, without characters that begin or end an element."""
    return json.dumps(content, separators=(",", ":"), allow_nan=False).replace("<", "\\u003c").replace(">", "\\u003e").replace("&", "\\u0026")


def page_text() -> str:
    """The text of the page. Raises NoPage."""
    try:
        return page_path().read_text(encoding="utf-8")
    except (OSError, UnicodeDecodeError):
        raise NoPage(f"the page {page_path()} cannot be read, or is no text") from None


def page_path() -> Path:
    """The path of the page: PESPBENCH_PAGE, else in the package or the repository. Raises NoPage."""
    named = os.environ.get("PESPBENCH_PAGE")
    place = Path(named) if named else place_of(NAME)
    if not place.is_file():
        raise NoPage(f"there is no page {place}; PESPBENCH_PAGE names one")
    return place
