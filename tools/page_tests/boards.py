"""A station's board: a clock face, a list and a matrix, from any station's name and on paper; and what is printed."""

from typing import Any

from page_tests import large
from page_tests.corridor import TRAINS, texts_of
from page_tests.fingers import tap, touch
from page_tests.hands import Hands
from page_tests.keys import CTRL
from page_tests.picturing import NIGHT
from tests.harness import Suite

# A connection from the first train's arrival at B into the train back, which takes 55 minutes, and may take 4 to 9.
CONNECTED = texts_of(TRAINS, [])
NUMBER = len(CONNECTED["activities"].splitlines()) + 1
CONNECTED["activities"] += f"{NUMBER}; 2; 16; 4; 9; 1\n"
CONNECTED["labels"] += f"{NUMBER}; change\n"


def station(page: Hands) -> Any:
    """The station whose board is shown, '' if there is none."""
    return page.ask("Page.find('view-station').hidden ? '' : document.querySelector('#board .board')?.dataset.of ?? ''")


def board(suite: Suite, page: Hands) -> None:
    """The face, the list and the matrix have each arrival and departure, with the actual and required minutes; a click chooses."""
    page.again()
    page.show(CONNECTED)
    page.ask("Page.choose(2); Page.showTab('station')")
    suite.note("that of the chosen event", {"it": "B"}, {"it": station(page)})
    face = page.ask("[...document.querySelectorAll('.face text.end')].map(each => each.textContent).sort()")
    suite.note("the face", {"it": ["L 03", "L 05", "L 10", "L 12", "L 40", "L 42"]}, {"it": face})
    # Arrivals are within the ring and departures without, at their minutes.
    places = page.ask(
        """Object.fromEntries([...document.querySelectorAll('.face [data-event]')].map(each => {
        const text = each.querySelector('text'), x = Number(text.getAttribute('x')), y = Number(text.getAttribute('y')) - 4;
        const turn = Math.round(30 * Math.atan2(x, -y) / Math.PI + 60) % 60, ring = Number(document.querySelector('.face .ring').getAttribute('r'));
        return [each.dataset.event, [turn, Math.hypot(x, y) < ring]];
    }))"""
    )
    suite.note("where", {"2": [10, True], "3": [12, False], "6": [40, True], "7": [42, False], "14": [3, True], "15": [5, False]}, places)
    rows = page.ask("[...document.querySelectorAll('#board .rounds tr[data-event]')].map(each => [...each.cells].map(cell => cell.textContent).join(' '))")
    wanted = ["03 arr. L to A C", "05 dep. L to A A", "10 arr. L to C A", "12 dep. L to C C", "40 arr. L to C A", "42 dep. L to C C"]
    suite.note("the list", {"rows": wanted}, {"rows": rows})
    page.click(*page.middle('#board tr[data-event="7"]'))
    page.frame()
    suite.note("a click in it", {"chosen": 7, "board": "B"}, {"chosen": page.ask("Page.chosen"), "board": station(page)})
    page.show({**CONNECTED, "activities": CONNECTED["activities"].replace("; 2; 16; 4; 9; 1", "; 14; 3; 4; 9; 1")})
    page.ask("Page.choose(2); Page.showTab('station')")
    cell = page.ask(f"(each => each && [each.textContent, each.className])(document.querySelector('#board td[data-activity=\"{NUMBER}\"]'))")
    suite.note("a connection that is met", {"it": ["9 of 4 to 9", "wanted"]}, {"it": cell})
    page.ask("Page.step(['time 3 13'])")
    cell = page.ask(f"(each => each && [each.textContent, each.className])(document.querySelector('#board td[data-activity=\"{NUMBER}\"]'))")
    suite.note("and one that is not", {"it": ["10 ✕ of 4 to 9", "alarm"]}, {"it": cell})
    page.show(NIGHT)
    page.ask("Page.choose(1)")
    suite.note("of a day", {"face": ["NJ 20:20", "RE 6:20"]}, {"face": page.ask("[...document.querySelectorAll('.face text.end')].map(each => each.textContent).sort()")})
    page.show({"activities": "1; 1; 2; 3; 5; 2\n", "period": "10"})
    suite.holds("without labels", "A file of labels" in page.text("#board") and not page.is_shown("to-board"))
    page.ask("Page.showTab('diagram')")


def off_the_ring(suite: Suite, page: Hands) -> None:
    """No text on a face lies on its ring, at any station."""
    page.again()
    crossing = """[...document.querySelectorAll('.face text.end')].filter(each => {
        const { x, y, width, height } = each.getBBox(), ring = Number(document.querySelector('.face .ring').getAttribute('r'));
        const far = [x, x + width].flatMap(across => [y + height / 4, y + 3 * height / 4].map(down => Math.hypot(across, down)));
        return Math.min(...far) < ring && Math.max(...far) > ring;
    }).map(each => each.textContent)"""
    for name in page.ask("[...new Set(Page.view.lines.flatMap(line => line.stations))]"):
        page.ask(f"Page.choose(Page.view.network.events.find(event => Page.labelOf(event).station === '{name}')); Page.showTab('station')")
        page.frame()
        suite.note(name, {"board": name, "on the ring": []}, {"board": station(page), "on the ring": page.ask(crossing)})
        page.ask("Page.showTab('diagram')")


def from_names(suite: Suite, page: Hands) -> None:
    """Two clicks, or taps, on a station's name show its board, in rows, the diagram, the netgraph, the corridor and tables; so do B, a button and a typed name."""
    page.again()
    row = page.ask("(({ left, top, height }) => [left + 10, top + height / 2])(document.querySelector('[data-row=\"3\"] .name').getBoundingClientRect())")
    page.click(row[0], row[1], count=2)
    page.frame()
    suite.note("in a row", {"it": page.ask("Page.labelOf(3).station")}, {"it": station(page)})
    for tab, name in [("diagram", "Marden"), ("netgraph", "Linton"), ("corridor", "Kelby")]:
        page.ask(f"Page.showTab('{tab}'); Page.chooseCorridor(['Gorsley', 'Inworth'])")
        page.frame()
        page.click(*page.middle(f'#{tab} [data-station="{name}"]' + (" text" if tab == "netgraph" else "")), count=2)
        page.frame()
        suite.note(f"in the {tab}", {"it": name}, {"it": station(page)})
    page.resize(390, 800)
    touch(page)
    page.ask("Page.showTab('diagram'); Page.choose(21)")
    page.frame()
    place = page.middle('#diagram [data-station="Jarrow"]')
    tap(page, place)
    tap(page, place)
    page.frame()
    suite.note("two taps of a finger", {"it": "Jarrow"}, {"it": station(page)})
    touch(page, is_on=False)
    page.resize(1440, 900)
    page.ask("Page.chooseCorridor([]); Page.showTab('tables')")
    page.click(*page.middle('#tables [data-station="Oakham"]'), count=2)
    page.frame()
    suite.note("in tables", {"it": "Oakham"}, {"it": station(page)})
    page.ask("Page.showTab('diagram'); Page.choose(2); document.querySelector('.strip[data-event=\"2\"]').focus()")
    page.type("b")
    suite.note("B", {"it": "Dale"}, {"it": station(page)})
    page.ask("Page.showTab('diagram'); Page.choose(1)")
    page.press("to-board")
    suite.note("the button of the chosen event", {"it": "Gorsley"}, {"it": station(page)})
    page.fill("#board-station input", "hatt\n")
    suite.note("a name that is typed", {"it": "Hatton"}, {"it": station(page)})
    page.ask("Page.showTab('diagram')")


def on_paper_as_chosen(suite: Suite, page: Hands) -> None:
    """Paper has all lines and no board at first, then the chosen ones; another network resets the choice."""
    page.again()
    shown = "[['.line h3 .pill', 'textContent'], ['.board h2', 'textContent'], ['.board svg.face', 'nodeName']].map(([each, what]) => [...document.querySelectorAll(`#printed ${each}`)].map(node => node[what]))"

    def printed() -> Any:
        page.ask("window.dispatchEvent(new Event('beforeprint'))")
        came = page.ask(shown)
        page.ask("window.dispatchEvent(new Event('afterprint'))")
        return came

    everything = [["R1", "R2", "R3", "R4", "R5", "R6"], [], []]
    suite.note("at first", {"it": everything}, {"it": printed()})
    page.ask("window.print = () => { window.isPrinted = true; }")
    page.press("choose-paper")
    page.click(*page.middle('#lines-on-paper option:nth-child(2)'))
    for place, modifiers in [(1, 0), (3, CTRL)]:
        x, y = page.middle(f"#boards-on-paper option:nth-child({place})")
        for kind in ("mousePressed", "mouseReleased"):
            page.mouse(kind, x, y, modifiers=modifiers)
    page.press("papers-print")
    page.until("window.isPrinted === true")
    suite.note("a line and two boards", {"it": [["R2"], ["Ashford", "Cranley"], ["svg", "svg"]]}, {"it": printed()})
    page.press("choose-paper")
    kept = page.ask("['lines', 'boards'].map(each => [...document.getElementById(`${each}-on-paper`).selectedOptions].map(option => option.value))")
    page.press("papers-close")
    suite.note("it is kept", {"it": [["R2"], ["Ashford", "Cranley"]]}, {"it": kept})
    page.ask("Page.openStory(Page.stories[0])")
    suite.note("in another network", {"it": everything}, {"it": printed()})
    page.ask("window.isPrinted = false")
    page.press("print")
    suite.note("a few lines", {"asked": False, "printed": True}, {"asked": page.is_shown("papers"), "printed": page.ask("window.isPrinted")})
    page.show(large.texts())
    page.ask("window.isPrinted = false")
    page.press("print")
    suite.note("2,048 events", {"asked": True, "printed": False}, {"asked": page.is_shown("papers"), "printed": page.ask("window.isPrinted")})
    page.click(*page.middle("#lines-on-paper option:nth-child(2)"))
    page.press("papers-print")
    page.until("window.isPrinted")
    suite.note("its second line", {"it": ["R1.2"]}, {"it": printed()[0]})
    page.again()


GROUPS = [board, off_the_ring, from_names, on_paper_as_chosen]
