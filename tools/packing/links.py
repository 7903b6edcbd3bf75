"""Links of documents, if some of their targets are not packed."""

import posixpath
import re
from typing import Collection

LINK = re.compile(r"!?\[([^\]]*)\]\(([^)#\s]*)(#[^)\s]*)?\)")


def with_live_links(name: str, text: str, names: Collection[str]) -> str:
    """The text of a document in which links to targets other than the given names are plain text."""
    folders = {posixpath.dirname(each) for each in names}

    def kept(link: "re.Match[str]") -> str:
        target = link[2]
        place = posixpath.normpath(posixpath.join(posixpath.dirname(name), target)) if target else name
        return link[0] if "://" in target or place in names or place in folders else link[1]

    return LINK.sub(kept, text)
