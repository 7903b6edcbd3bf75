"""Pictures of a report's content, by the page's own JavaScript under Node."""

from __future__ import annotations

import shutil
import subprocess
from pathlib import Path

from pespbench.report.gathering import Content
from pespbench.report.page import page_path, written

SECONDS = 120


class NoNode(OSError):
    """Node is missing, or does not draw."""


def netgraph_of(content: Content) -> str:
    """The netgraph alone, as an SVG picture; empty if fewer than two stations are known. Raises NoNode and NoPage."""
    return drawn("netgraph", content)


def drawn(what: str, content: Content) -> str:
    """What Node draws from a content: the `netgraph` as a picture, or the `report` as elements. Raises NoNode and NoPage."""
    node = shutil.which("node")
    if node is None:
        raise NoNode("no netgraph is drawn: it is drawn by the page's JavaScript under Node, and there is no command node")
    words = [node, str(Path(__file__).with_name("drawing.js")), str(page_path()), what]
    done = subprocess.run(words, input=written(content), capture_output=True, encoding="utf-8", timeout=SECONDS, check=False)
    if done.returncode:
        raise NoNode(f"no netgraph is drawn: {done.stderr.strip()[:200] or 'Node ended'}")
    return done.stdout
