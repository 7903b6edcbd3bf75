"""Looks: long names, light and dark, small screens, fingers, and the names of drawings."""

from page_tests.corridor import TRAINS, texts_of
from page_tests.fingers import scroll, swipe, tap, touch
from page_tests.hands import Hands
from page_tests.whole import LOOK
from page_tests.words import TABS
from tests.harness import Suite, within

# Texts with too little contrast to their background, below 4.5 to 1, by the colors that a browser computes.
PALE = """(() => {
    const canvas = document.createElement('canvas').getContext('2d', { willReadFrequently: true });
    const rgb = color => {
        canvas.clearRect(0, 0, 1, 1);
        canvas.fillStyle = color;
        canvas.fillRect(0, 0, 1, 1);
        return [...canvas.getImageData(0, 0, 1, 1).data];
    };
    const light = ([red, green, blue]) => [red, green, blue].map(each => each / 255)
        .map(each => each <= 0.03928 ? each / 12.92 : ((each + 0.055) / 1.055) ** 2.4)
        .reduce((sum, each, place) => sum + each * [0.2126, 0.7152, 0.0722][place], 0);
    const ground = node => {
        for (let at = node; at; at = at.parentElement) {
            const color = rgb(getComputedStyle(at).backgroundColor);
            if (color[3] > 250) return color;
        }
        return rgb('white');
    };
    const pale = [];
    for (const node of document.querySelectorAll('body *')) {
        const hasText = [...node.childNodes].some(each => each.nodeType === 3 && each.textContent.trim());
        if (!hasText || !node.getClientRects().length || node.closest('title') || node.disabled) continue;
        const style = getComputedStyle(node), isDrawn = node instanceof SVGElement;
        const isOnLine = isDrawn && node.matches('.lane');
        const below = isOnLine ? rgb(getComputedStyle(node.previousElementSibling).fill)
            : ground(isDrawn ? node.ownerSVGElement.parentElement : node);
        const [one, other] = [light(rgb(isDrawn ? style.fill : style.color)), light(below)].sort((first, last) => last - first);
        const name = `${node.tagName} ${node.getAttribute('class') || ''}: ${node.textContent.slice(0, 20)}`;
        if ((one + 0.05) / (other + 0.05) < 4.5) pale.push(name);
    }
    return [...new Set(pale)];
})()"""
NAMELESS = """[...document.querySelectorAll('svg')].filter(each => !each.parentElement.closest('svg') && !each.closest('[aria-hidden=true]')
    && !(['img', 'group'].includes(each.getAttribute('role')) && each.getAttribute('aria-label'))).length"""
TOUCHING = """(() => {
    const seen = [...document.querySelectorAll('#axis span')].map(each => each.getBoundingClientRect()).filter(({ width }) => width);
    return seen.slice(1).filter((each, place) => each.left < seen[place].right + 1).length;
})()"""
LONG = "Llanfairpwllgwyngyllgogerychwyrndrobwllllantysiliogogogoch"
OLD = "Bad Neustadt an der Saale Hauptbahnhof (tief)"
WIDE = [("Regionalexpress Oberland–Unterland", LONG, [(OLD, 0), (LONG, 10), (LONG, 12), ("B", 20)]), ("S", OLD, [(LONG, 3), (OLD, 13)])]


@within(240)
def sizes(suite: Suite, page: Hands) -> None:
    """With long names, at 390 points and at 200 per cent, nothing is wider than the page, no text is cut, and a row is complete."""
    for width, height, scale in [(1360, 850, 1), (800, 1000, 1), (390, 800, 1), (390, 800, 2), (680, 425, 2)]:
        page.resize(width, height, scale)
        for name, texts in [("long names", texts_of([*WIDE, *TRAINS], [(1, 5, 3, 57)])), ("short ones", texts_of(TRAINS, []))]:
            page.show(texts, "A network with a name that is long too, as somebody has called it")
            page.ask("Page.find('keep-A').click(); Page.step(['fix 1 30', 'time 1 30'])")
            for tab in TABS:
                page.ask(f"Page.showTab('{tab}'); Page.chooseCorridor(Page.view.lines[0].stations)")
                page.frame()
                suite.note(f"{width} by {scale}, {name}, {tab}", {"wider": 0, "cut": []}, page.ask(LOOK))
            beyond = page.ask(
                """[...document.querySelectorAll('#events :is(.strip, .time, .note, .name small), #legend li, button.ask:not(.search *)')].filter(each => {
                const { left, right, width } = each.getBoundingClientRect();
                return width && (left < 0 || right > innerWidth);
            }).map(each => each.className || each.textContent)"""
            )
            suite.note(f"{width} by {scale}, {name}: beyond the screen", {"they": []}, {"they": beyond})
            suite.note(f"{width} by {scale}, {name}: minutes above the strips that touch", {"they": 0}, {"they": page.ask(TOUCHING)})
            strip, small = page.box('.strip[data-event="1"]')[2], page.box('[data-row="1"] .name small')[2]
            suite.holds(f"{width} by {scale}, {name}: a strip of {strip:.0f} points, and what it is of", strip >= 110 and small > 20)
    page.resize(1440, 900)
    page.ask("Page.showTab('diagram')")


def colors(suite: Suite, page: Hands) -> None:
    """Light and dark, each text is readable on its background; paper is light."""
    for scheme in ("light", "dark"):
        page.call("Emulation.setEmulatedMedia", features=[{"name": "prefers-color-scheme", "value": scheme}])
        page.again()
        ground = page.ask("getComputedStyle(document.body).backgroundColor")
        suite.note(scheme, {"ground": {"light": "rgb(243, 245, 247)", "dark": "rgb(15, 19, 23)"}[scheme]}, {"ground": ground})
        page.ask("Page.find('keep-A').click(); Page.step(['fix 3 40', 'window 5 2 30']); Page.moveTrain(21, -3, false)")
        for tab in TABS:
            page.ask(f"Page.showTab('{tab}'); Page.chooseCorridor(['Gorsley', 'Inworth'])")
            suite.note(f"{scheme}, {tab}", {"pale": []}, {"pale": page.ask(PALE)})
        suite.note(f"{scheme}, what is drawn of a violation", {"drawn": True}, {"drawn": page.ask("document.querySelectorAll('.broken').length > 5")})
        page.press("add-from")
        page.ask("Page.choose(9); document.querySelector('#adding details').open = true")
        suite.note(f"{scheme}, adding", {"pale": []}, {"pale": page.ask(PALE)})
        page.press("tab-tables")
        for name, close in [("open", "opening-close"), ("save", "saving-close"), ("add-line", "lining-close")]:
            page.press(name)
            suite.note(f"{scheme}, the dialog {name}", {"pale": []}, {"pale": page.ask(PALE)})
            page.press(close)
    page.call("Emulation.setEmulatedMedia", media="print", features=[{"name": "prefers-color-scheme", "value": "dark"}])
    came = page.ask("(({ backgroundColor, color }) => ({ ground: backgroundColor, ink: color }))(getComputedStyle(document.body))")
    suite.note("paper", {"ground": "rgb(255, 255, 255)", "ink": "rgb(29, 39, 51)"}, came)
    page.call("Emulation.setEmulatedMedia", media="", features=[])


def fingers(suite: Suite, page: Hands) -> None:
    """Under a finger the strips scroll up and down and change nothing; across it drags, and a tap chooses."""
    page.resize(390, 800)
    page.again()
    touch(page)
    page.ask("Page.find('events').scrollIntoView()")
    before = page.ask("Page.find('events').scrollTop + window.scrollY")
    scroll(page, page.minute(3, 30), -300)
    after = page.ask("Page.find('events').scrollTop + window.scrollY")
    suite.holds(f"a strip scrolls by {after - before}", after - before > 150)
    suite.note("and nothing else", {"lines": [], "chosen": 1}, {"lines": page.lines(), "chosen": page.ask("Page.chosen")})
    page.ask("Page.find('events').scrollTop = 0")
    tap(page, page.minute(5, 40))
    suite.note("a tap", {"lines": [], "chosen": 5}, {"lines": page.lines(), "chosen": page.ask("Page.chosen")})
    swipe(page, [page.minute(3, minute) for minute in (10, 15, 25, 30, 40)])
    suite.note("a finger across", {"lines": ["fix 3 40"], "chosen": 3}, {"lines": page.lines(), "chosen": page.ask("Page.chosen")})
    place = page.minute(3, 10)
    tap(page, place)
    tap(page, place)
    suite.note("two taps", {"lines": ["fix 3 40", "unfix 3"]}, {"lines": page.lines()})
    number = page.ask("Number(document.querySelector('.card').dataset.activity)")
    place = page.middle(f'[data-activity="{number}"] .bar')
    before = page.ask("Page.find('chosen').scrollTop")
    scroll(page, place, -150)
    suite.holds("a track scrolls", page.ask("Page.find('chosen').scrollTop") - before > 50 and len(page.lines()) == 2)
    touch(page, is_on=False)
    page.resize(1440, 900)


def images(suite: Suite, page: Hands) -> None:
    """Each drawing has a name, on paper too, and the netgraph's stations have theirs."""
    page.again()
    for tab in TABS:
        page.ask(f"Page.showTab('{tab}'); Page.chooseCorridor(['Gorsley', 'Inworth'])")
        suite.note(tab, {"nameless": 0}, {"nameless": page.ask(NAMELESS)})
    name = page.ask("document.querySelector('#netgraph > svg').getAttribute('aria-label')")
    suite.note("the netgraph", {"name": "Netgraph of 15 stations and 6 lines"}, {"name": name})
    stations = "[...document.querySelectorAll('#netgraph [data-station]')]"
    named = page.ask(f"{stations}.every(each => each.getAttribute('aria-label') === each.dataset.station)")
    suite.holds("its stations", named)
    page.ask("window.dispatchEvent(new Event('beforeprint'))")
    suite.note("on paper", {"nameless": 0}, {"nameless": page.ask(NAMELESS)})
    page.ask("window.dispatchEvent(new Event('afterprint')); Page.showTab('diagram')")


GROUPS = [sizes, colors, fingers, images]
