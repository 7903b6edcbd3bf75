"""A search that reports its progress: its steps, its end, and the state that it must not change."""

from __future__ import annotations

import random
import signal
import threading
import time
import unittest
from functools import partial
from typing import Any, Callable, Dict, List, Optional, Sequence, Tuple
from unittest import mock

from pespbench import BadReply, Bench, Ended, Engine, Found, Infeasible, Network, NoLibrary, Optimum, Progress, Search, Stopped
from pespbench.library import Told, ToldFound
from pespbench.transport import OutOfTime, Reached
from pespbench.work import Work
from tests.common import LONG, SLOWER, SOON, Case, over_both
from tests.stand_in_library import MEMORY, Answer, StandIn, usual


class Script:
    """A session whose steps are known: the seconds of a clock of each, and its result."""

    def __init__(self, steps: Sequence[Tuple[float, Reached]]) -> None:
        self.work = Work(Network(60))
        self.now = 100.0
        self.asked: List[int] = []
        self._steps = iter(steps)

    def searched(self, nodes: int, deadline: float) -> Reached:
        seconds, reached = next(self._steps)
        self.asked.append(nodes)
        self.now += seconds if reached.goes_on else min(seconds, deadline - self.now)
        if self.now >= deadline and not reached.goes_on:
            raise OutOfTime
        return reached

    def search(self, seconds: float, standing: Stopped = Stopped(), nodes: int = 1_000) -> Search:
        """A search over it."""
        return Search(self, standing, seconds, nodes, None)  # type: ignore[arg-type]  # of a session it has what a search asks


def stopped(cost: Optional[int], bound: Optional[int] = None, goes_on: bool = False) -> Reached:
    return Reached(Stopped() if cost is None else Stopped(cost, {1: cost}), bound, goes_on)


class Steps(unittest.TestCase):
    """When a step starts, and what is reported after it."""

    def over(self, *steps: Tuple[float, Reached]) -> Script:
        script = Script(steps)
        clock = mock.patch("pespbench.searching.clock", mock.Mock(monotonic=lambda: script.now))
        clock.start()
        self.addCleanup(clock.stop)
        return script

    def told(self, search: Search) -> List[Tuple[Optional[int], Optional[int], bool]]:
        return [(each.cost, each.lower_bound, each.is_ended) for each in search]

    def test_doubled(self) -> None:
        """Each step has twice the nodes of the one before; none starts if less time is left than the last one took."""
        script = self.over((1, stopped(None)), (2, stopped(9)), (4, stopped(9)), (8, stopped(9)))
        self.assertEqual(self.told(script.search(11.5)), [(None, None, False), (9, None, False), (9, None, False), (9, None, True)])
        self.assertEqual((script.asked, script.now), ([1_000, 2_000, 4_000, 8_000], 111.5))
        script = self.over((1, stopped(None)), (2, stopped(9)), (4, stopped(8)))
        self.assertEqual(self.told(script.search(11)), [(None, None, False), (9, None, False), (8, None, True)])
        self.assertEqual((script.asked, script.now), ([1_000, 2_000, 4_000], 107))

    def test_bound_of_what_was_found(self) -> None:
        """The result at the end has the earlier bound; the optimum has its own."""
        found = self.over((1, stopped(9, 4)), (2, stopped(None, 3))).search(3).found()
        self.assertEqual((found, found.cost, found.lower_bound, found.is_proved), (Stopped(9, {1: 9}), 9, 4, False))
        found = self.over((1, stopped(None, 3)), (1, Reached(Optimum(5, {1: 5})))).search(9).found()
        self.assertEqual((found.lower_bound, found.is_proved), (5, True))

    def test_even(self) -> None:
        """A resumed step takes about a quarter of a second: it is doubled if it was much quicker, halved if slower."""
        seconds = [0.01, 0.12, 0.13, 0.5, 0.6, 0.01, 0.3]
        script = self.over(*((took, stopped(9, place, True)) for place, took in enumerate(seconds, 1)))
        self.assertEqual(self.told(script.search(1.6)), [(9, place, place == 7) for place in range(1, 8)])
        self.assertEqual(script.asked, [1_000, 2_000, 4_000, 4_000, 4_000, 2_000, 4_000])
        script = self.over(*((took, stopped(None, place, True)) for place, took in enumerate([9, 9, 0.01], 1)))
        self.told(script.search(18.005, nodes=2))
        self.assertEqual(script.asked, [2, 1, 1])
        script = self.over((0.01, stopped(None, 1, True)), (1, stopped(None, 2, True)))
        self.told(script.search(1, nodes=10**12))
        self.assertEqual(script.asked, [10**12, 10**12])

    def test_even_with_nothing_new(self) -> None:
        """It stays that long if it finds nothing new, as on a hard network."""
        script = self.over(*((0.25, stopped(9, 1, True)) for _ in range(40)))
        self.assertEqual(self.told(script.search(10)), [(9, 1, False)] * 39 + [(9, 1, True)])
        self.assertEqual(script.asked, [1_000] * 40)

    def test_anew(self) -> None:
        """One that restarts is doubled however slow it was, and whatever is new; one that resumes after it starts as usual."""
        script = self.over((0.01, stopped(9, 1)), (0.3, stopped(8, 2)), (0.6, stopped(8, 2)), (1.2, stopped(8, 2)))
        self.assertEqual(self.told(script.search(3)), [(9, 1, False), (8, 2, False), (8, 2, False), (8, 2, True)])
        self.assertEqual(script.asked, [1_000, 2_000, 4_000, 8_000])
        script = self.over((1, stopped(None, 1)), (0.25, stopped(None, 1, True)), (1, stopped(None, 1, True)))
        self.assertEqual(self.told(script.search(2.2)), [(None, 1, False)] * 2 + [(None, 1, True)])
        self.assertEqual(script.asked, [1_000, 2_000, 2_000])

    def test_even_to_the_end(self) -> None:
        """A resumed step starts if any time is left, and is completed."""
        script = self.over((0.25, stopped(None, 1, True)), (0.25, stopped(None, 2, True)), (0.25, stopped(9, 3, True)))
        self.assertEqual(self.told(script.search(0.51)), [(None, 1, False), (None, 2, False), (9, 3, True)])
        self.assertEqual((script.asked, script.now), ([1_000] * 3, 100.75))

    def test_no_time(self) -> None:
        script = self.over()
        self.assertEqual(self.told(script.search(0)), [(None, None, True)])
        self.assertEqual(self.told(script.search(0, Stopped(7, {1: 3}))), [(7, None, True)])
        self.assertEqual(script.asked, [])

    def test_time_goes_on_between_steps(self) -> None:
        script = self.over((1, stopped(5)), (1, stopped(4)))
        search = script.search(10)
        self.assertEqual(next(search).seconds, 1)
        script.now += 9
        self.assertEqual((next(search), list(search), script.asked), (Progress(Stopped(5, {1: 5}), None, True, 10), [], [1_000]))

    def test_never_back(self) -> None:
        """No cost is above one before it, and no bound below."""
        steps = [stopped(9, 3), stopped(None, 5), stopped(12, 2), stopped(8, 0), stopped(8), Reached(Optimum(7, {1: 7}), 7)]
        told = self.told(self.over(*((1, step) for step in steps)).search(100, Stopped(10, {1: 10})))
        wanted = [(10, None), (9, 3), (9, 5), (9, 5), (8, 5), (8, 5), (7, 7)]
        self.assertEqual(told, [(*each, place == 6) for place, each in enumerate(wanted)])

    def test_gap(self) -> None:
        for cost, bound, gap in [(10, 9, 0.1), (10, 10, 0.0), (0, 0, 0.0), (None, 3, None), (4, None, None), (8, 0, 1.0)]:
            progress = Progress(Stopped(cost, {} if cost is None else {1: 0}), bound, False, 0.0)
            self.assertEqual((progress.gap, progress.times is None), (gap, cost is None))
        none = Progress(Infeasible(), 0, True, 1.0)
        self.assertEqual((none.cost, none.times, none.gap), (None, None, None))

    def test_ends(self) -> None:
        """It continues at a gap of 0, and ends once all is known."""
        found: List[Found] = [Optimum(7, {1: 7}), Infeasible()]
        for each in found:
            script = self.over((1, stopped(7, 7)), (1, Reached(each, 0)))
            search = script.search(100)
            self.assertEqual((search.found(), search.found(), search.progress.found, len(script.asked)), (each, each, each, 2))
            self.assertRaises(StopIteration, next, search)

    def test_most_nodes(self) -> None:
        script = self.over((1, stopped(3)), (1, stopped(3)))
        self.assertEqual(self.told(script.search(100, nodes=10**12)), [(3, None, True)])
        self.assertEqual(script.asked, [10**12])

    def test_another_network(self) -> None:
        """A step on another network is not part of the search; times do not belong to the network."""
        script = self.over((1, stopped(None)), (1, stopped(None)))
        search = script.search(100)
        next(search)
        script.work.times[1] = 3
        next(search)
        script.work.apply("add event 1")
        self.assertRaises(ValueError, next, search)
        self.assertEqual(list(search), [])


# A program whose first searches find cheaper and cheaper timetables; its lines are recorded in a file beside it.
GETS_CHEAPER = r"""
if line == "dump":
    write(b"# period 60 lines 3\nadd event 1\nadd event 2\nadd activity 1 1 2 3 30 1\n")
elif line.startswith("try"):
    with open(__file__ + ".tries", "a") as tries:
        tries.write(line[4:] + " ")
    if line == LAST:
        time.sleep(600)
    nodes = int(line[4:])
    cost = max(20 - nodes // 1000, 0)
    write(b"%s %d 2\n1 0\n2 %d\n" % (b"stopped" if nodes < 8000 else b"optimum", cost, cost + 3))
elif line == "violations":
    write(b"violations 1\nactivity 1\n")
else:
    write(b"ok\n")
"""


def interrupt_when(is_asked: Callable[[], bool]) -> None:
    """Ctrl-C for this process, from another thread, as soon as a line is sent."""

    def wait() -> None:
        until = time.monotonic() + LONG
        while not is_asked() and time.monotonic() < until:
            time.sleep(0.02)
        signal.pthread_kill(threading.main_thread().ident or 0, signal.SIGINT)

    threading.Thread(target=wait, daemon=True).start()


class OverPipes(Case):
    """With a program that answers `try`."""

    def opened(self, last: str = "") -> Bench:
        bench = Bench.open(None, program=self.stand_in(GETS_CHEAPER.replace("LAST", repr(last))))
        self.addCleanup(bench.close)
        bench.many(["time 1 0", "time 2 0"])
        return bench

    def tries(self) -> List[int]:
        path = self.folder / "stand-in.tries"
        return [int(word) for word in path.read_text().split()] if path.exists() else []

    def test_steps(self) -> None:
        """The cost is reported during the search, and a bound at the end."""
        bench = self.opened()
        told = list(bench.search(60))
        self.assertEqual([each.cost for each in told], [19, 18, 16, 12])
        self.assertEqual([each.times and each.times[2] for each in told], [22, 21, 19, 15])
        self.assertEqual([(each.lower_bound, each.gap, each.is_ended) for each in told], [(None, None, False)] * 3 + [(12, 0.0, True)])
        self.assertEqual((told[-1].found, self.tries()), (Optimum(12, {1: 0, 2: 15}), [1_000, 2_000, 4_000, 8_000]))
        self.assertEqual(sorted(each.seconds for each in told), [each.seconds for each in told])

    def test_callback(self) -> None:
        """The callback receives the same."""
        told: List[Progress] = []
        bench = self.opened()
        self.assertEqual(list(bench.search(60, nodes=500, watch=told.append)), told)
        self.assertEqual((self.tries(), bench.search(60, watch=told.append).found()), ([500, 1_000, 2_000, 4_000, 8_000], told[-1].found))

    def test_the_caller_stops(self) -> None:
        """No more lines follow, and the bench continues with the same program."""
        bench = self.opened("try 4000")
        for progress in bench.search(60):
            if progress.cost == 18:
                break
        bench.add_event(3)
        self.assertEqual((self.tries(), bench.network.events), ([1_000, 2_000], [1, 2, 3]))
        self.assertEqual((self.folder / "stand-in.starts").read_text(), "s")

    def test_out_of_time(self) -> None:
        bench = self.opened("try 4000")
        began = time.monotonic()
        told = list(bench.search(4))
        self.assertLess(time.monotonic() - began, SOON)
        self.assertEqual([(each.cost, each.is_ended) for each in told], [(19, False), (18, False), (18, True)])

    def test_interrupt(self) -> None:
        """The result until Ctrl-C is kept; the search is over, and the bench has not changed."""
        bench = self.opened("try 4000")
        before = bench.journal, bench.times, bench.network
        search = bench.search(60)
        interrupt_when(lambda: 4_000 in self.tries())
        self.assertRaises(KeyboardInterrupt, search.found)
        self.assertEqual((search.progress.found, search.progress.is_ended, list(search)), (Stopped(18, {1: 0, 2: 21}), False, []))
        self.assertEqual((search.found(), (bench.journal, bench.times, bench.network)), (Stopped(18, {1: 0, 2: 21}), before))
        bench.add_event(3)
        self.assertEqual(bench.undo(), ["add event 3"])

    def test_wrong_words(self) -> None:
        bench = self.opened()
        for seconds, nodes in [(-1.0, 1_000), (float("nan"), 1_000), (1e7, 1_000), (1.0, 0), (1.0, -1), (1.0, 10**12 + 1)]:
            self.assertRaises(ValueError, bench.search, seconds, nodes)


def over(case: Case, library: StandIn) -> Bench:
    """A bench over a stand-in of the library, as long as a test lasts."""
    loading = mock.patch("pespbench.library.loaded", return_value=library.calls())
    loading.start()
    case.addCleanup(loading.stop)
    bench = Bench.open(None, period=10, engine=Engine("library", "stand-in"))
    case.addCleanup(bench.close)
    return bench


def after(table: Dict[int, Any], nodes: int) -> Any:
    """The entry of a table for the most nodes that are no more than these."""
    return table[max(least for least in table if least <= nodes)]


# A program that accepts all edits, and finds no timetable.
BESIDE = """
write({"dump": EMPTY, "try 1000": b"infeasible\\n"}.get(line, b"ok\\n"))
"""


class OverCalls(Case):
    """With a stand-in of a library that has `pesp_search`."""

    REPLIES = {1_000: b"stopped none\n", 2_000: b"stopped 9 2\n4 1\n7 3\n", 4_000: b"stopped 8 2\n4 1\n7 2\n", 8_000: b"optimum 6 2\n4 0\n7 5\n"}
    BOUNDS = {1_000: 2, 2_000: 1, 4_000: 5, 8_000: 6}
    # Of quick calls one after the other.
    SIZES = (1_000, 2_000, 4_000, 8_000)

    def setUp(self) -> None:
        """By a stopped clock each call is quick."""
        super().setUp()
        now = time.monotonic()
        clock = mock.patch("pespbench.searching.clock", mock.Mock(monotonic=lambda: now))
        clock.start()
        self.addCleanup(clock.stop)

    def opened(self, library: StandIn) -> Bench:
        """A bench with two events over a stand-in."""
        bench = over(self, library)
        bench.many(["add event 7", "add event 4"])
        return bench

    def library(self, others: Optional[Dict[bytes, Callable[[], Answer]]] = None, bound: Any = partial(after, BOUNDS)) -> StandIn:
        """Answers searches by the tables above, except for other lines."""

        def answer(line: bytes) -> Answer:
            if line.startswith(b"try ") and line not in (others or {}):
                reply: bytes = after(self.REPLIES, int(line.split()[1]))
                return reply
            return usual(line, others or {})

        return StandIn(answer, bound=bound)

    def told(self, bench: Bench) -> List[Tuple[Optional[int], Optional[int]]]:
        return [(each.cost, each.lower_bound) for each in bench.search(60)]

    def test_bounds_over_the_program(self) -> None:
        """The library beside the program searches instead of it, and if there is none the exception names the places searched."""
        library = self.library()
        over(self, library)
        program = self.stand_in(BESIDE)
        with Bench.open(None, period=10, program=program) as bench, mock.patch.dict("os.environ", PESPBENCH_LIB=""):
            bench.many(["add event 7", "add event 4", "time 4 3"])
            with mock.patch("ctypes.util.find_library", return_value=None):
                self.assertRaisesRegex(NoLibrary, "beside the program", bench.search, 60, bounds=True)
            with mock.patch("pespbench.library.find_library", return_value="stand-in"):
                told = list(bench.search(60, bounds=True))
                self.assertEqual([(each.cost, each.lower_bound) for each in told], [(None, 2), (9, 2), (8, 5), (6, 6)])
            self.assertEqual(list(library.lines)[1:4], [b"add event 4", b"add event 7", b"time 4 3"])
            self.assertEqual((bench.engine.name, bench.times, bench.search(60).found()), ("program", {4: 3}, Infeasible()))

    def test_bounds(self) -> None:
        """Costs and bounds are reported during the search, only by calls."""
        library = self.library()
        bench = self.opened(library)
        told = list(bench.search(60))
        self.assertEqual([(each.cost, each.lower_bound, each.gap) for each in told], [(None, 2, None), (9, 2, 7 / 9), (8, 5, 3 / 8), (6, 6, 0.0)])
        self.assertEqual((told[1].times, told[-1].found), ({4: 1, 7: 3}, Optimum(6, {4: 0, 7: 5})))
        self.assertEqual(asked(library), list(self.SIZES))
        self.assertEqual(list(library.lines)[-4:], [b"pesp_search %d" % nodes for nodes in self.SIZES])
        self.assertEqual(bench.journal, ["add event 7", "add event 4"])

    def test_asked_on(self) -> None:
        """Another search resumes the one before it, beside times that are set and queries; an edit restarts it."""
        library = self.library()
        bench = self.opened(library)
        first = bench.search(60)
        self.assertEqual([next(first).cost for _ in range(2)], [None, 9])
        bench.time(4, 3)
        bench.dump()
        self.assertEqual(self.told(bench), [(8, 5), (8, 5), (6, 6)])
        self.assertEqual((asked(library), library.opened), ([1_000, 2_000, 1_000, 2_000, 4_000], 1))
        bench.untime(4)
        self.assertEqual((self.told(bench), library.nodes), ([(6, 6)], 11_000))
        bench.fix(4, 1)
        self.assertEqual((next(bench.search(60)).cost, library.nodes, library.opened), (None, 1_000, 1))

    def test_sizes(self) -> None:
        """A call takes about a quarter of a second, however many nodes a second a library visits, and there are many calls,
        also if none finds anything new."""
        for rate, nodes, least, most, last in [(4_000, 1, 1, 512, 512), (4_000, 10**6, 1_953, 10**6, 1_953), (10, 1_000, 3, 1_000, 3)]:
            now = [time.monotonic()]
            slow = Slow(now, rate)
            with self.subTest(rate=rate, nodes=nodes), mock.patch("pespbench.searching.clock", mock.Mock(monotonic=lambda: now[0])):
                over(self, slow).search(1_000, nodes).found()
                sizes = asked(slow)
                self.assertEqual((min(sizes), max(sizes), sizes[-1]), (least, most, last))
                self.assertGreater(sizes.count(last), 100)

    def test_sizes_anew(self) -> None:
        """If the library reports that it cannot resume, each call has twice the nodes of the one before."""
        now = [time.monotonic()]
        slow = Slow(now, 4_000, goes_on=False)
        with mock.patch("pespbench.searching.clock", mock.Mock(monotonic=lambda: now[0])):
            over(self, slow).search(100).found()
        self.assertEqual(asked(slow), [1_000 << place for place in range(9)])

    def test_none(self) -> None:
        library = self.library({b"try 3000": lambda: b"infeasible\n"}, lambda nodes: 0)
        [first, last] = self.opened(library).search(60)
        self.assertEqual((first.found, last.found, last.is_ended, last.cost, last.gap), (Stopped(), Infeasible(), True, None, None))

    def test_an_older_library(self) -> None:
        """Without the call a search uses lines, and has no bound before the end."""
        library = self.library(bound=None)
        self.assertEqual(self.told(self.opened(library)), [(None, None), (9, None), (8, None), (6, 6)])
        self.assertEqual(list(library.lines)[-4:], [b"try %d" % nodes for nodes in self.SIZES])

    def test_no_memory(self) -> None:
        """It is reported like for any line; the result until then is kept."""
        bench = self.opened(self.library({b"try 7000": lambda: MEMORY}))
        search = bench.search(60)
        with self.assertRaises(Ended) as told:
            search.found()
        self.assertEqual((str(told.exception), search.progress.cost, search.progress.lower_bound), ("pespbench: out of memory", 9, 2))

    def test_nonsense(self) -> None:
        """Impossible states, and other numbers of times."""
        for state, length in [(4, 0), (2, 1), (1, 3), (0, 2), (3, 2), (2**32 - 1, 2)]:
            library = Wrong(state, length)
            bench = self.opened(library)
            self.assertRaises(BadReply, bench.search(60).found)
            bench.add_event(9)
            self.assertEqual((bench.network.events, library.opened, library.closed), ([4, 7, 9], 2, 1))


def asked(library: StandIn) -> List[int]:
    """The nodes of the calls for searches."""
    return [int(line.split()[1]) for line in library.lines if line.startswith(b"pesp_search")]


class Slow(StandIn):
    """Visits this many nodes in a second of a clock, and finds nothing."""

    def __init__(self, clock: List[float], rate: int, goes_on: bool = True) -> None:
        super().__init__(lambda line: usual(line, {b"violations": lambda: b"violations 1\nactivity 1\n"}), bound=lambda nodes: 0)
        self.clock, self.rate, self.goes_on = clock, rate, goes_on

    def _search(self, _: int, nodes: int, room: int, room_length: int, found: int, told: int) -> None:
        self.lines.append(b"pesp_search %d" % nodes)
        self.clock[0] += nodes / self.rate
        ToldFound.from_address(found).state = 0
        ToldFound.from_address(found).goes_on = self.goes_on
        Told.from_address(told).length = Told.from_address(told).status = 0


class Wrong(StandIn):
    """Reports a state and a number of times of searches."""

    def __init__(self, state: int, length: int) -> None:
        super().__init__(lambda line: usual(line, {}), bound=lambda nodes: 0)
        self.state, self.length = state, length

    def _search(self, _: int, nodes: int, room: int, room_length: int, found: int, told: int) -> None:
        ToldFound.from_address(found).state = self.state
        Told.from_address(told).length, Told.from_address(told).status = self.length, 0


class GivenUp(Case):
    """A search in process that does not return from a call."""

    def opened(self) -> Tuple[Bench, StandIn, threading.Event]:
        may_end = threading.Event()
        self.addCleanup(may_end.set)

        def wait() -> Answer:
            may_end.wait(LONG)
            return b"infeasible\n"

        library = StandIn(lambda line: usual(line, {b"try 1000": lambda: b"stopped 4 1\n1 3\n", b"try 3000": wait}), bound=lambda nodes: 3)
        bench = over(self, library)
        bench.add_event(1)
        return bench, library, may_end

    def goes_on(self, bench: Bench, library: StandIn, may_end: threading.Event) -> None:
        """The bench answers in another session; that of the search is closed as soon as it has ended."""
        bench.fix(1, 2)
        self.assertEqual((bench.journal, library.opened, library.closed), (["add event 1", "fix 1 2"], 2, 0))
        may_end.set()
        until = time.monotonic() + LONG
        while not library.closed:
            self.assertLess(time.monotonic(), until)
            time.sleep(0.01)

    def test_deadline(self) -> None:
        bench, library, may_end = self.opened()
        told = list(bench.search(2))
        self.assertEqual([(each.cost, each.lower_bound, each.is_ended) for each in told], [(4, 3, False), (4, 3, True)])
        self.goes_on(bench, library, may_end)

    def test_interrupt(self) -> None:
        bench, library, may_end = self.opened()
        search = bench.search(60)
        interrupt_when(lambda: b"pesp_search 2000" in library.lines)
        self.assertRaises(KeyboardInterrupt, search.found)
        self.assertEqual((search.progress.cost, search.progress.gap), (4, 0.25))
        self.goes_on(bench, library, may_end)


@over_both
class Real(Case):
    """With the engines themselves."""

    def test_drawn(self) -> None:
        """On random networks the end is the optimum, reports never get worse, and nothing has changed."""
        draw, ends = random.Random(5), set()
        with self.drawn(5, 6, 10, period=10, room=3) as bench:
            for place in range(80 // SLOWER):
                spans = [(draw.randrange(10), draw.randint(1, 7)) for _ in range(10)]
                bench.many(f"span {number} {lower} {lower + length}" for number, (lower, length) in enumerate(spans))
                bench.set_times({event: draw.randrange(10) for event in range(6)})
                before = bench.dump(), bench.journal, bench.times
                told = list(bench.search(60, nodes=1 + place % 3))
                self.assertEqual((bench.dump(), bench.journal, bench.times), before)
                self.assertEqual(told[-1].found, bench.optimum(), spans)
                self.assert_in_order(told)
                ends.add(type(told[-1].found))
        self.assertEqual(ends, {Optimum, Infeasible})

    def assert_in_order(self, told: List[Progress]) -> None:
        """Costs and bounds in their order, and the bound below each cost."""
        costs = [each.cost for each in told if each.cost is not None]
        bounds = [each.lower_bound for each in told if each.lower_bound is not None]
        self.assertEqual((costs, bounds), (sorted(costs, reverse=True), sorted(bounds)))
        if isinstance(told[-1].found, Optimum):
            self.assertLessEqual(max(bounds), min(costs))
        self.assertEqual([each.is_ended for each in told], [*[False] * (len(told) - 1), True])

    def test_timetables(self) -> None:
        """Each reported timetable meets everything, at its cost."""
        with self.drawn(3, 40, 90) as bench:
            for progress in bench.search(3, nodes=10):
                if progress.times is not None:
                    with bench.trial():
                        bench.set_times(progress.times)
                        self.assertEqual((len(bench.violations()), bench.cost()), (0, progress.cost))

    def test_from_what_stands(self) -> None:
        bench = self.two_trains()
        bench.set_times({1: 0, 2: 5})
        told = list(bench.search(60))
        self.assertEqual([(each.cost, each.times) for each in told], [(5, {1: 0, 2: 5}), (4, {1: 0, 2: 4})])
        self.assertEqual((bench.times, bench.undo()), ({1: 0, 2: 5}, ["time 1 0", "time 2 5"]))

    def test_small(self) -> None:
        """A network without events, one without a timetable, and an edit after both."""
        with Bench.open(None, **self.how) as bench:
            self.assertEqual(bench.search(60).found(), Optimum(0, {}))
            bench.many(["add event 1", "add event 2", "add activity 1 1 2 3 3 1", "add activity 2 2 1 3 3 1"])
            [last] = bench.search(60)
            self.assertEqual((last.found, last.is_ended, bench.optimum()), (Infeasible(), True, Infeasible()))
            bench.span(2, 57, 57)
            self.assertEqual(bench.search(60).found(), Optimum(0, {1: 0, 2: 3}))


if __name__ == "__main__":
    unittest.main()
