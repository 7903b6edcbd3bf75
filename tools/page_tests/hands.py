"""The page in a browser, and the places of its handles."""

import json
from typing import Any, Dict, List, Mapping, Tuple

from page_tests.browser import Browser, Failed, Place

# The two trains of README.md, at period 10, with a timetable and names.
TWO_TRAINS = {
    "activities": "1; 1; 2; 3; 5; 2\n2; 2; 1; 4; 6; 1\n",
    "times": "1; 0\n2; 3\n",
    "period": "10\n",
    "labels": "event; line; to; station; kind\n1; M; Benton; Ashford; departure\n2; M; Benton; Benton; arrival\nactivity; kind\n1; run\n",
}


class Hands(Browser):
    """A browser with the page in it."""

    def __init__(self, binary: str, address: str) -> None:
        super().__init__(binary)
        self.address = address
        self.open(address)

    def show(self, texts: Mapping[str, str], title: str = "a test") -> None:
        """Opens the texts of files by their kinds; nothing of the old network remains."""
        self.ask(
            f"document.querySelectorAll('dialog[open]').forEach(each => each.close()); Page.openTexts({json.dumps(texts)}, {json.dumps(title)})"
        )
        self.frame()

    def box(self, selector: str) -> List[float]:
        """The left and top edge, the width and the height of an element, which is scrolled into view."""
        edges: List[float] = self.ask(
            f"""(() => {{
            const found = document.querySelector({json.dumps(selector)});
            found.scrollIntoView({{ block: 'nearest' }});
            const {{ left, top, width, height }} = found.getBoundingClientRect();
            return [left, top, width, height];
        }})()"""
        )
        return edges

    def middle(self, selector: str) -> Place:
        """The middle of an element."""
        left, top, width, height = self.box(selector)
        return left + width / 2, top + height / 2

    def minute(self, event: int, minute: float) -> Place:
        """The place of a minute on the strip of an event."""
        left, top, width, height = self.box(f'.strip[data-event="{event}"]')
        return left + width * (minute + 0.5) / self.ask("Page.view.network.period"), top + height / 2

    def unit(self, activity: int, minutes: float) -> Place:
        """The place of a number of minutes on the track of an activity."""
        left, top, width, height = self.box(f'[data-activity="{activity}"] .track')
        least, count = self.ask(f"Page.rangeShown({activity})")
        return left + width * (minutes - least + 0.5) / count, top + height / 2

    def across(self, view: str) -> Tuple[float, float]:
        """Where the minutes of a diagram begin in it, and how wide they are, in its own units."""
        left, width = self.ask(f"['x', 'width'].map(name => Number(document.querySelector('#{view} svg svg').getAttribute(name)))")
        return left, width

    def grip(self, event: int, name: str) -> Place:
        """The middle of a handle on the strip of an event: `first`, `last` or `now`."""
        return self.middle(f'.strip[data-event="{event}"] [data-grip="{name}"]')

    def lines(self) -> List[str]:
        """The lines of the steps that are done."""
        lines: List[str] = self.ask("Page.journal()")
        return lines

    def said(self) -> str:
        """The message below the buttons."""
        return self.text("#said")

    def text(self, selector: str) -> str:
        """The text of an element."""
        text: str = self.ask(f"document.querySelector({json.dumps(selector)}).textContent")
        return text

    def row(self, event: int, part: str) -> str:
        """The text of a part of an event's row: `time` or `note`."""
        return self.text(f'[data-row="{event}"] .{part}')

    def drawn(self) -> None:
        """Waits until the netgraph is drawn."""
        self.until("Page.find('netgraph').getAttribute('aria-busy') !== 'true'")

    def press(self, identifier: str) -> None:
        """Clicks the element of an id."""
        self.click(*self.middle(f"#{identifier}"))
        self.frame()

    def again(self) -> None:
        """Reloads the page, untouched."""
        self.open(self.address)

    def type(self, text: str) -> None:
        """Types a text, key by key; a line feed is Enter."""
        for letter in text.replace("\n", "\r"):
            name = {"key": "Enter", "windowsVirtualKeyCode": 13} if letter == "\r" else {"key": letter}
            self.call("Input.dispatchKeyEvent", type="keyDown", text=letter, **name)
            self.call("Input.dispatchKeyEvent", type="keyUp", **name)
        self.frame()

    def fill(self, selector: str, text: str) -> None:
        """Types a text in a field, replacing its contents."""
        self.click(*self.middle(selector), count=3)
        self.type(text)

    def drop(self, *paths: object) -> None:
        """Drops existing files and folders on the page, and waits until they are opened or examined."""
        self.ask("Page.say('')")
        data = {"items": [], "files": [str(path) for path in paths], "dragOperationsMask": 1}
        for kind in ("dragEnter", "dragOver", "drop"):
            self.call("Input.dispatchDragEvent", type=kind, x=300, y=300, data=data)
        self.until("Page.find('opening').open || Page.find('said').textContent !== '' || !Page.find('stop').hidden")
        self.frame()

    def opening(self) -> Dict[str, Any]:
        """The state of the dialog of files: whether it is open, its fault and its help."""
        is_open = self.ask("Page.find('opening').open")
        return {"open": is_open, "told": self.text("#opening-fault"), "help": self.text("#opening-help")}

    def is_shown(self, identifier: str) -> bool:
        """Whether the element of an id is visible."""
        is_shown: bool = self.ask(f"Page.find({json.dumps(identifier)})?.getClientRects().length > 0")
        return is_shown

    def state(self) -> str:
        """All replies of the program on the state shown, as one text."""
        state: str = self.ask(
            """(({ network, domains, times, tensions, cost }) => JSON.stringify([
                network.events, [...network.windows], [...network.activities.values()], [...domains], [...times],
                tensions && [...tensions], cost,
            ]))(Page.view)"""
        )
        return state

    def shown(self) -> str:
        """The drawing, as one text: rows with their strips and their contents, figures, and the chosen event's activities."""
        drawn: str = self.ask(
            """[...document.querySelectorAll('[data-row] path, [data-row] .time, [data-row] .note, .figure, .told, .fields input')]
            .map(each => each.getAttribute('d') || each.value || each.textContent).join('|')"""
        )
        return drawn


__all__ = ["Failed", "Hands", "TWO_TRAINS"]
