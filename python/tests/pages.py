"""Common parts of the tests of reports: a region with a timetable in a bench, and the elements of a page."""

from __future__ import annotations

from html.parser import HTMLParser
from pathlib import Path

from pespbench import Bench
from pespbench.drawn import draw_region
from tests.common import PROGRAM

NO_NODE = "nothing was drawn: there is no Node"
VOID = {"meta", "br", "link", "img", "input", "hr"}


class Node:
    """An element of a page with its attributes, its children and the text within it."""

    def __init__(self, tag: str, attributes: dict[str, str]) -> None:
        self.tag, self.attributes = tag, attributes
        self.children: list[Node] = []
        self.texts: list[str] = []

    @property
    def text(self) -> str:
        """All text within."""
        return "".join(self.texts)

    def all(self, attribute: str) -> list[Node]:
        """The elements within that have an attribute."""
        own = [self] if attribute in self.attributes else []
        return own + [node for child in self.children for node in child.all(attribute)]

    def tags(self) -> set[str]:
        """The tags within."""
        return {self.tag}.union(*(child.tags() for child in self.children))

    def number(self, attribute: str) -> int:
        """An attribute as a number."""
        return int(self.attributes[attribute])


class Page(HTMLParser):
    """Reads a page; each element must be closed in its order."""

    def __init__(self, text: str) -> None:
        super().__init__()
        self.root = Node("", {})
        self.open = [self.root]
        self.feed(text)
        self.close()
        assert len(self.open) == 1, f"not closed: {self.open[-1].tag}"

    def handle_starttag(self, tag: str, attrs: list[tuple[str, str | None]]) -> None:
        """Opens an element."""
        node = Node(tag, {name: value or "" for name, value in attrs})
        self.open[-1].children.append(node)
        if tag not in VOID:
            self.open.append(node)

    def handle_endtag(self, tag: str) -> None:
        """Closes the element that is open."""
        closed = self.open.pop()
        assert closed.tag == tag, f"{tag} closes {closed.tag}"

    def handle_data(self, data: str) -> None:
        """Adds text to all elements that are open."""
        for node in self.open:
            node.texts.append(data)


def region_bench(folder: Path, seed: int = 1) -> Bench:
    """A region with its hidden timetable; two events are held, one of them at another time, and one span is too short for it."""
    region = draw_region(seed)
    region.save(folder)
    bench = Bench.open(folder / "activities", times=folder / "times", labels=folder / "labels", program=PROGRAM)
    first, second = region.events[0], region.events[30]
    bench.fix(first.number, first.time)
    bench.window(second.number, (second.time + 2) % 60, 5)
    longest = max(bench.tensions().values(), key=lambda each: (each.slack, each.activity))
    activity = bench.network.activities[longest.activity]
    bench.span(activity.number, activity.lower, activity.lower + longest.slack - 1)
    return bench
