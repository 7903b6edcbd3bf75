"""A finger on the page, by real touch events."""

from typing import Sequence

from page_tests.browser import Browser, Place


def touch(page: Browser, is_on: bool = True) -> None:
    """Gives the screen touch, or removes it."""
    page.call("Emulation.setTouchEmulationEnabled", enabled=is_on, maxTouchPoints=1)
    # Buttons are larger on touch screens, which moves the elements below them.
    page.until(f"matchMedia('(pointer: coarse)').matches === {str(is_on).lower()}")
    page.frame()


def swipe(page: Browser, places: Sequence[Place]) -> None:
    """A finger goes down at the first of some places, over the others, and up."""
    for kind, (x, y) in [("touchStart", places[0]), *(("touchMove", place) for place in places[1:])]:
        page.call("Input.dispatchTouchEvent", type=kind, touchPoints=[{"x": x, "y": y}])
        page.frame()
    page.call("Input.dispatchTouchEvent", type="touchEnd", touchPoints=[])
    page.frame()


def tap(page: Browser, place: Place) -> None:
    """A finger taps."""
    swipe(page, [place])


def scroll(page: Browser, place: Place, distance: float) -> None:
    """A finger that scrolls goes down or, where the distance is below 0, up."""
    x, y = place
    swipe(page, [(x, y + distance * part / 6) for part in range(7)])
