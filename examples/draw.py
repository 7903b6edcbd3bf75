"""Draws the replies of pespbench as one SVG page.

usage: pespbench .. <COMMANDS | PYTHONPATH=python python3 examples/draw.py [TIMES] >page.svg

The commands are `dump`, and those of `domains`, `tensions`, `violations`, `cost` and `optimum` to be drawn. TIMES is a
file of times; without it the times are those of the last `optimum` or `try`. A refusal or a fault goes to standard error,
and the rest is drawn.
"""

import sys

from pespbench import Domain, Fault, Optimum, PespbenchError, Refused, Stopped, Violations
from pespbench.answers import runs
from pespbench.files import read_times
from pespbench.replies import answer_of, replies_of
from pespbench.work import network_of

WIDTH, ROW, LETTER = 600, 20, 8
INK, PALE, RED = "#1f2933", "#6b7785", "#c0182b"
STRIP, DOMAIN, SPAN, FIXED = "#edf0f3", "#9cc4e8", "#a9d6a5", "#d98200"


class Told:
    """The contents of the replies."""

    def __init__(self):
        self.network = self.cost = None
        self.domains, self.times, self.tensions, self.violated = {}, {}, {}, Violations((), ())

    def take(self, answer):
        """One answer."""
        if isinstance(answer, str):
            self.network = network_of(answer)
        elif isinstance(answer, int):
            self.cost = answer
        elif isinstance(answer, Domain):
            self.domains[answer.event] = answer
        elif isinstance(answer, Violations):
            self.violated = answer
        elif isinstance(answer, (Optimum, Stopped)):
            self.times = answer.times or self.times
        elif isinstance(answer, dict):
            is_domains = all(isinstance(each, Domain) for each in answer.values())
            (self.domains if is_domains else self.tensions).update(answer)


def bounded(value, least, most):
    if not least <= value <= most:
        raise ValueError(f"{value} is not within {least} to {most}")
    return value


def read(text):
    """The contents of replies, with a network at a valid period."""
    told = Told()
    for reply in replies_of(text):
        try:
            told.take(answer_of(reply))
        except (Refused, Fault) as refusal:
            print(refusal, file=sys.stderr)
    if told.network is None:
        raise ValueError("the reply to `dump` is missing")
    bounded(told.network.period, 2, 1440)
    return told


class Page:
    """The lines of a page, from top to bottom, with labels to the left of the strips and notes to the right."""

    def __init__(self, period, left, right):
        self.period, self.left = period, 24 + LETTER * left
        self.width = self.left + WIDTH + 24 + LETTER * right
        self.lines, self.top = [], 8

    def x(self, place):
        """The position of a time, from 0 to the period."""
        return self.left + WIDTH * place / self.period

    def box(self, start, end, color, inset=3):
        height = ROW - 2 * inset
        width = self.x(end) - self.x(start)
        shape = f'x="{self.x(start):.1f}" y="{self.top + inset}" width="{width:.1f}" height="{height}"'
        self.lines.append(f'<rect {shape} fill="{color}"/>')

    def text(self, x, text, color=INK, anchor="start", weight="normal"):
        place = f'x="{x:.1f}" y="{self.top + 14}" fill="{color}" text-anchor="{anchor}" font-weight="{weight}"'
        self.lines.append(f"<text {place}>{text}</text>")

    def dot(self, x):
        self.lines.append(f'<circle cx="{x:.1f}" cy="{self.top + ROW / 2:.1f}" r="5.5" fill="{INK}" stroke="#fff"/>')

    def cross(self, x):
        """The mark of a violation or an impossible time, instead of the dot."""
        y = self.top + ROW / 2
        path = f"M{x - 5:.1f} {y - 5:.1f}l10 10m0 -10l-10 10"
        self.lines.append(f'<path d="{path}" stroke="#fff" stroke-width="6"/>')
        self.lines.append(f'<path d="{path}" stroke="{RED}" stroke-width="3"/>')

    def mark(self, x, is_wrong):
        self.cross(x) if is_wrong else self.dot(x)

    def ring(self, x):
        """The mark of a fixed time, around the dot of a time."""
        place = f'cx="{x:.1f}" cy="{self.top + ROW / 2:.1f}" r="8"'
        self.lines.append(f'<circle {place} fill="none" stroke="{FIXED}" stroke-width="2.5"/>')

    def band(self, start, end):
        """The mark of a window, a frame around its times."""
        shape = f'x="{self.x(start):.1f}" y="{self.top + 1.5}" width="{self.x(end) - self.x(start):.1f}" height="{ROW - 3}"'
        self.lines.append(f'<rect {shape} fill="none" stroke="{FIXED}" stroke-width="2.5"/>')

    def axis(self):
        """Numbers above the strips that follow."""
        step = next(step for step in (1, 2, 5, 10) if self.period / step <= 12 or step == 10)
        for place in range(0, self.period, step):
            self.text(self.x(place + 0.5), place, PALE, "middle")
        self.top += ROW

    def strip(self, label, note, is_wrong=False):
        color, weight = (RED, "bold") if is_wrong else (INK, "normal")
        self.text(self.left - 12, label, color, "end", weight)
        self.text(self.left + WIDTH + 12, note, color, weight=weight)
        self.box(0, self.period, STRIP)

    def heading(self, text, note=""):
        self.top += ROW // 2
        self.text(12, text, weight="bold")
        self.text(self.left, note, PALE)
        self.top += ROW


class Event:
    """A row of the first part: an event's possible times, and its time."""

    def __init__(self, told, event):
        self.window, self.period = told.network.windows[event], told.network.period
        time, domain = told.times.get(event), told.domains.get(event)
        self.time = None if time is None else time % self.period
        self.domain = None if domain is None else sorted(domain.residues)
        self.label, self.is_violated = f"event {event}", event in told.violated.events
        self.is_wrong = self.is_violated or None not in (self.time, self.domain) and self.time not in self.domain
        notes = ["" if self.time is None else f"at {self.time}", self.hold()]
        notes += ["" if self.domain is None else f"{len(self.domain)} possible", "violated" if self.is_violated else ""]
        self.note = ", ".join(filter(None, notes))

    def hold(self):
        """The text of its window."""
        if self.window is None:
            return ""
        first, length = self.window.first, self.window.length
        if length == self.period:
            return "within all times"
        return f"fixed at {first}" if length == 1 else f"within {first} to {(first + length - 1) % self.period}"

    def draw(self, page):
        page.strip(self.label, self.note, self.is_violated)
        for first, last in runs(self.domain or []):
            page.box(bounded(first, 0, self.period - 1), bounded(last + 1, 1, self.period), DOMAIN)
        self.draw_window(page)
        if self.time is not None:
            page.mark(page.x(self.time + 0.5), self.is_wrong)
        page.top += ROW

    def draw_window(self, page):
        """A ring for a fixed time; for another window a band, in two pieces if it wraps around the period."""
        if self.window is None:
            return
        first = bounded(self.window.first, 0, self.period - 1)
        after = first + bounded(self.window.length, 1, self.period)
        if self.window.length == 1:
            page.ring(page.x(first + 0.5))
            return
        if self.window.length == self.period:
            page.band(0, self.period)
            return
        page.band(first, min(after, self.period))
        if after > self.period:
            page.band(0, after - self.period)


class Activity:
    """A row of the second part: the span of an activity above its lower bound, and its slack."""

    def __init__(self, told, each):
        self.room = bounded(each.upper, -1_000_000, 1_000_000) - bounded(each.lower, -1_000_000, 1_000_000)
        self.slack = told.tensions[each.number].slack if each.number in told.tensions else None
        self.label, self.is_wrong = f"{each.number}: {each.from_event} → {each.to_event}", each.number in told.violated.activities
        tension = "" if self.slack is None else f"{each.lower + bounded(self.slack, 0, 1439)} of "
        self.note = f"{tension}{each.lower} to {each.upper}" + (", violated" if self.is_wrong else "")

    def draw(self, page):
        page.strip(self.label, self.note, self.is_wrong)
        page.box(0, min(bounded(self.room, 0, 2_000_000) + 1, page.period), SPAN)
        if self.slack is not None:
            page.mark(page.x(bounded(self.slack, 0, page.period - 1) + 0.5), self.is_wrong)
        page.top += ROW


def longest(texts):
    return max([12, *map(len, texts)])


def draw_legend(page):
    x = page.left
    for color, text, width in [(DOMAIN, "possible", 84), (SPAN, "within the span", 126)]:
        page.lines.append(f'<rect x="{x}" y="{page.top + 4}" width="14" height="12" fill="{color}"/>')
        page.text(x + 20, text)
        x += width
    marks = [(page.dot, "time, or slack", 112), (page.cross, "violated, or not possible", 176)]
    marks += [(page.ring, "fixed time", 0)]
    for draw_mark, text, width in marks:
        draw_mark(x + 6)
        page.text(x + 20, text)
        x += width
    page.top += ROW


def draw(told):
    """The page, as text."""
    events = [Event(told, event) for event in told.network.events]
    activities = [Activity(told, told.network.activities[number]) for number in sorted(told.network.activities)]
    rows = [*events, *activities]
    page = Page(told.network.period, longest(row.label for row in rows), longest(row.note for row in rows))
    heads = [f"period {told.network.period}", f"{len(told.violated)} violated" if told.tensions else ""]
    heads += ["" if told.cost is None else f"cost {told.cost}"]
    page.text(12, ", ".join(filter(None, heads)), weight="bold")
    page.top += ROW + 4
    draw_legend(page)
    slacks = "the slack of each, which is how far it is above its lower bound, within its span"
    parts = [("Events", "when in the period each can be, and is", events), ("Activities", slacks, activities)]
    for title, note, listed in parts:
        page.heading(title, note)
        page.axis()
        for row in listed:
            row.draw(page)
    size = f'width="{page.width}" height="{page.top + 12}"'
    head = f'<svg xmlns="http://www.w3.org/2000/svg" {size} font-family="sans-serif" font-size="12">'
    return "\n".join([head, '<rect width="100%" height="100%" fill="#fff"/>', *page.lines, "</svg>\n"])


def main(words):
    told = read(sys.stdin.read())
    if words:
        told.times = read_times(words[0])
    sys.stdout.write(draw(told))


if __name__ == "__main__":
    try:
        main(sys.argv[1:])
    except (PespbenchError, ValueError, OSError) as fault:
        sys.exit(f"draw.py: these replies cannot be drawn: {fault}")
