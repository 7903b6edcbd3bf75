"""The page by the keyboard alone, and what a screen reader announces."""

from page_tests.hands import TWO_TRAINS, Hands
from tests.harness import Suite

SHIFT, CTRL = 8, 2
CODES = {
    "ArrowLeft": 37,
    "ArrowUp": 38,
    "ArrowRight": 39,
    "ArrowDown": 40,
    "Delete": 46,
    "PageUp": 33,
    "PageDown": 34,
    "Tab": 9,
}


def strips(suite: Suite, page: Hands) -> None:
    """The window of an event is moved, lengthened and removed by keys."""
    page.show(TWO_TRAINS)
    page.ask("Page.showRow(1)")
    for name, modifiers, line in [
        ("ArrowRight", 0, "fix 1 0"),
        ("ArrowRight", 0, "fix 1 1"),
        ("ArrowRight", SHIFT, "window 1 1 2"),
        ("ArrowLeft", 0, "window 1 0 2"),
        ("ArrowLeft", 0, "window 1 9 2"),
        ("ArrowLeft", SHIFT, "fix 1 9"),
        ("PageUp", 0, "fix 1 9"),
        ("Delete", 0, "unfix 1"),
    ]:
        page.key(name, CODES[name], modifiers)
        suite.note(f"{name} {modifiers}", {"line": line}, {"line": page.lines()[-1]})
    page.key("ArrowDown", CODES["ArrowDown"])
    suite.note(
        "the next event",
        {"chosen": 2, "focus": "2"},
        {"chosen": page.ask("Page.chosen"), "focus": page.ask("document.activeElement.dataset.event")},
    )
    page.key("z", 90, CTRL)
    page.frame()
    suite.note("Ctrl and z", {"said": "undone: M to Benton leaves Ashford: no longer held"}, {"said": page.said()})
    page.key("y", 89, CTRL)
    page.frame()
    suite.note("Ctrl and y", {"said": "done again: M to Benton leaves Ashford: no longer held"}, {"said": page.said()})


def handles(suite: Suite, page: Hands) -> None:
    """Each handle is reached by Tab, and arrow keys move it."""
    page.show(TWO_TRAINS)
    page.ask("Page.step(['window 1 2 3']); Page.showRow(1)")
    reached = []
    for _ in range(3):
        page.key("Tab", CODES["Tab"])
        reached.append(page.ask("document.activeElement.dataset.grip || ''"))
        page.key("ArrowLeft", CODES["ArrowLeft"])
    suite.note("handles by Tab", {"reached": {"first", "last", "now"}}, {"reached": set(reached)})
    suite.note("their lines", {"lines": {"window 1 1 4", "window 1 1 3", "time 1 9"}}, {"lines": set(page.lines()[1:])})
    for end, key, line in [("lower", "ArrowLeft", "span 1 2 5"), ("upper", "ArrowRight", "span 1 2 6")]:
        page.ask(f"document.querySelector('[data-activity=\"1\"] .{end}').focus()")
        page.key(key, CODES[key])
        suite.note(f"the {end} end", {"line": line}, {"line": page.lines()[-1]})
    page.key("ArrowRight", CODES["ArrowRight"], SHIFT)
    suite.note("the whole span", {"line": "span 1 3 7"}, {"line": page.lines()[-1]})


def told(suite: Suite, page: Hands) -> None:
    """Each handle has a role, a name and a value, and each button, field and view a name."""
    page.show(TWO_TRAINS)
    page.ask("Page.step(['window 1 2 3']); Page.showRow(1)")
    nameless = page.ask(
        """[...document.querySelectorAll('[role=slider]')].filter(each => !each.hidden && !(each.getAttribute('aria-label')
        && each.getAttribute('aria-valuetext') && each.hasAttribute('aria-valuenow') && each.tabIndex >= -1)).map(each => each.className)"""
    )
    suite.note("handles", {"without a name": []}, {"without a name": nameless})
    nameless = page.ask(
        """[...document.querySelectorAll('button, input, select')].filter(each => !each.textContent.trim() && !each.getAttribute('aria-label')
        && !(each.labels && each.labels.length)).map(each => each.id)"""
    )
    suite.note("buttons and fields", {"without a name": []}, {"without a name": nameless})
    came = page.ask("document.querySelector('.strip[data-event=\"1\"]').getAttribute('aria-valuetext')")
    suite.note("a strip", {"told": "can be at :02–:04; held from :02 to :04"}, {"told": came})
    suite.note(
        "its name",
        {"name": "M to Benton leaves Ashford"},
        {"name": page.ask("document.activeElement.getAttribute('aria-label')")},
    )
    page.ask("Page.find('tab-diagram').focus()")
    page.key("ArrowRight", CODES["ArrowRight"])
    suite.note(
        "views by keys",
        {"tab": "netgraph", "focus": "tab-netgraph"},
        {"tab": page.ask("Page.tab"), "focus": page.ask("document.activeElement.id")},
    )
    page.ask("Page.showTab('diagram')")


GROUPS = [strips, handles, told]
