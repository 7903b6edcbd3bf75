"""A search runs step by step in one session of the Worker, which receives requests to pause between two steps."""

from typing import List

from page_tests.hands import TWO_TRAINS, Hands
from page_tests.searching import DONE, long_search, soon_found
from page_tests.stopping import begun
from tests.harness import Suite, within

# Makes a Worker do something first, and keeps its reports of calls beside its answers.
BESIDE = """(() => {
    const { addEventListener } = Worker.prototype;
    window.calls = [];
    Worker.prototype.addEventListener = function listen(name, listener) {
        addEventListener.call(this, name, event => event.data && event.data.call ? window.calls.push(event.data) : listener(event));
    };
    PespModule.text += `\\n(${() => { FIRST }})();`;
})()"""

# It reports the Workers that are started, sessions that are opened, and steps of searches that are done.
TELLS = """for (const call of ['start', 'open', 'search']) {
    const does = PespModule[call];
    PespModule[call] = (...given) => {
        const came = does(...given);
        self.postMessage({ call });
        return came;
    };
}"""

# By its clock, searches visit this many nodes in a millisecond, and find nothing new; each resumes, or restarts.
SLOW = """const { performance } = self, now = performance.now.bind(performance);
let later = 0;
performance.now = () => now() + later;
PespModule.search = (module, session, nodes) => {
    later += nodes / RATE;
    self.postMessage({ call: 'search', nodes, at: Number(session.at) });
    return { state: 0, cost: 0n, lowerBound: 0n, goesOn: GOES_ON, times: null, ending: { status: 0 }, fault: '' };
};"""

# It reports in which session a line is asked.
ASKS = """const { ask } = PespModule;
PespModule.ask = (module, session, line) => {
    self.postMessage({ call: 'ask', line, at: Number(session.at) });
    return ask(module, session, line);
};"""


def slow(rate: float, goes_on: bool = True) -> str:
    """The same at this many nodes in a millisecond."""
    return SLOW.replace("RATE", str(rate)).replace("GOES_ON", str(goes_on).lower())


def count(page: Hands, call: str) -> int:
    """How often the Worker has done something."""
    done: int = page.ask(f"window.calls.filter(({{ call }}) => call === '{call}').length")
    return done


def wait(page: Hands, milliseconds: int) -> None:
    """Lets this much time pass."""
    page.ask(f"new Promise(done => setTimeout(done, {milliseconds}))")


def gone_on(page: Hands) -> None:
    """Resumes a search, waits until it has done two steps, and stops it."""
    before = count(page, "search")
    page.press("optimum")
    page.until(f"window.calls.filter(({{ call }}) => call === 'search').length > {before + 1}")
    page.press("stop")


@within(240)
def one_session(suite: Suite, page: Hands) -> None:
    """A stopped search is resumed in the same session, beside times that are set, and after an edit that is undone."""
    page.again()
    page.ask(BESIDE.replace("FIRST", TELLS))
    page.show(soon_found())
    begun(page)
    page.press("stop")
    for name, script in [
        ("at once", "0"), ("beside times", "Page.step(['time 1 5', 'time 2 8'])"), ("after Undo", "Page.step(['weight 1 5']); Page.undo()"),
    ]:
        page.ask(script)
        suite.note(f"gone on {name}: the button", {"it": "Go on"}, {"it": page.text("#optimum")})
        gone_on(page)
        suite.note(f"gone on {name}", {"open": 1, "start": 1}, {"open": count(page, "open"), "start": count(page, "start")})
    page.ask("Page.find('adopt').click()")
    gone_on(page)
    suite.note("gone on with what was adopted", {"open": 1, "start": 1}, {"open": count(page, "open"), "start": count(page, "start")})
    page.ask("Page.step(['weight 1 5'])")
    gone_on(page)
    suite.holds("another network has another session", count(page, "open") > 1 and count(page, "start") == 1)


@within(120)
def beside_gains(suite: Suite, page: Hands) -> None:
    """The question what one more minute would save uses another session than that of a stopped search."""
    page.again()
    page.ask(BESIDE.replace("FIRST", slow(4) + ASKS))
    page.show({**TWO_TRAINS, "times": ""})
    gone_on(page)
    page.press("tab-gains")
    page.ask("document.querySelectorAll('#allowed-kinds input').forEach(each => { each.checked = true; })")
    page.click(*page.middle("#gains-form .main"))
    page.until(f"{DONE} && /^2 of 2 asked/.test(Page.find('gains-progress').textContent)")
    gone_on(page)
    searched = page.ask("[...new Set(window.calls.filter(({ call, nodes }) => call === 'search' && nodes).map(({ at }) => at))]")
    changed = page.ask("window.calls.filter(({ call, line }) => call === 'ask' && line.startsWith('span')).map(({ at }) => at)")
    suite.note("the search has one session of its own", {"sessions": 1, "lines": 4}, {"sessions": len(set(searched) - set(changed)), "lines": len(changed)})
    page.ask("Page.showTab('diagram')")


@within(240)
def at_once(suite: Suite, page: Hands) -> None:
    """A long search is stopped within half a second, and the Worker pauses after its step; a task without steps ends it."""
    page.again()
    page.ask(BESIDE.replace("FIRST", TELLS))
    page.show(long_search())
    page.press("optimum")
    page.until("window.calls.filter(({ call }) => call === 'search').length > 6")
    took = page.ask("(() => { const from = performance.now(); Page.find('stop').click(); return performance.now() - from; })()")
    before = count(page, "search")
    suite.holds(f"stopped after {took} ms", took < 500 and not page.is_shown("stop") and page.said() == "the search was stopped")
    wait(page, 1000)
    steps = count(page, "search") - before
    suite.holds(f"{steps} steps after that", steps <= 1)
    wait(page, 1000)
    suite.note("it rests", {"steps": steps, "start": 1}, {"steps": count(page, "search") - before, "start": count(page, "start")})
    page.press("ask-why")
    page.until("!Page.find('stop').hidden")
    page.press("stop")
    suite.note("what has no steps is stopped, too", {"said": "stopped", "stop": False}, {"said": page.said(), "stop": page.is_shown("stop")})
    gone_on(page)
    suite.note("by another Worker", {"start": 2}, {"start": count(page, "start")})


def tried(suite: Suite, page: Hands, name: str, most: int, sizes: List[int], told: int) -> None:
    """Continues searches by this many nodes at most: the steps so far, and the nodes in the report."""
    page.ask(f"Page.find('nodes').value = '{most}'")
    page.press("try")
    page.until(DONE)
    suite.note(name, {"nodes": sizes}, {"nodes": page.ask("window.calls.map(({ nodes }) => nodes)")})
    suite.holds(f"{name}: after so many", page.text("#clock").startswith(f"after {told:,} attempts"))


@within(120)
def even_steps(suite: Suite, page: Hands) -> None:
    """A resumed step takes about a quarter of a second, however many nodes a second the module visits, even if it finds nothing
    new; one that restarts has twice the nodes; a last one has the rest."""
    for rate, sizes in [(4, [1000] * 5), (40, [1000, 2000, 4000, 8000, 8000]), (0.4, [1000, 500, 250, 125, 125])]:
        page.again()
        page.ask(BESIDE.replace("FIRST", slow(rate)))
        page.show({**TWO_TRAINS, "times": ""})
        page.press("optimum")
        page.until("window.calls.length > 9")
        page.press("stop")
        came = page.ask("window.calls.map(({ nodes }) => nodes)")
        suite.note(f"{rate} nodes in a millisecond", {"first": sizes, "last": sizes[-1]}, {"first": came[:5], "last": came[-1]})
    page.again()
    page.ask(BESIDE.replace("FIRST", slow(40)))
    page.show({**TWO_TRAINS, "times": ""})
    tried(suite, page, "tried", 2500, [1000, 1500], 2500)
    tried(suite, page, "tried on", 2500, [1000, 1500, 2000, 500], 5000)
    page.again()
    page.ask(BESIDE.replace("FIRST", slow(0.4, goes_on=False)))
    page.show({**TWO_TRAINS, "times": ""})
    tried(suite, page, "begun anew", 20_000, [1000, 2000, 4000, 8000, 5000], 20_000)
    page.again()


GROUPS = [one_session, beside_gains, at_once, even_steps]
