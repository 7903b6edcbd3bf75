"""What minutes cost: equal to a search with each of them, and nothing changes, whatever ends it."""

from __future__ import annotations

import gc
import random
import time
import unittest
from concurrent.futures import ThreadPoolExecutor
from typing import Any, Dict, List, Mapping, Optional, Tuple
from unittest import mock

from pespbench import Activity, Bench, Engine, Fault, Infeasible, Network, Optimum, Price, Refused, Stopped, Violations, all_prices
from pespbench.faults import WrongWords
from pespbench.prices import Prices, steps_to
from tests.common import SLOWER, SOON, Case, Whole, drawn_script, over_both
from tests.stand_in_library import StandIn, usual
from tests.test_progress import interrupt_when
from tests.timetables import small_script, timetables

Costs = Dict[int, Optional[int]]


def state_of(bench: Bench) -> Tuple[Network, Dict[int, int], List[str]]:
    """The state that a question must not change."""
    return bench.network.copy(), bench.times, bench.journal


@over_both
class Equal(Case):
    """On random networks."""

    def small(self, seed: int) -> Tuple[Bench, random.Random]:
        """A network with some times, and edits that can be undone."""
        draw = random.Random(seed)
        period = draw.choice([5, 6, 7])
        bench = Bench.from_script("\n".join(small_script(draw, period)), period=period, **self.how)
        self.addCleanup(bench.close)
        bench.set_times({event: draw.randrange(period) for event in bench.network.events[draw.randrange(2) :]})
        return bench, draw

    def searched(self, bench: Bench, lines: Dict[int, str]) -> Costs:
        """The cost of an optimum with each line."""
        costs: Costs = {}
        for value, line in lines.items():
            with bench.trial():
                bench.ask(line)
                costs[value] = bench.optimum().cost
        return costs

    def test_events(self) -> None:
        """As if fixed there, if the window admits it."""
        for seed in range(max(2, 12 // SLOWER)):
            bench, draw = self.small(seed)
            event, before = draw.choice(bench.network.events), state_of(bench)
            window = bench.network.windows[event]
            wanted = self.searched(bench, {residue: f"fix {event} {residue}" for residue in range(bench.period)})
            wanted = {value: cost if window is None or window.holds(bench.period, value) else None for value, cost in wanted.items()}
            prices = bench.prices(event=event)
            found = prices.found()
            self.assertEqual({value: price.cost for value, price in found.items()}, wanted)
            self.assertTrue(all(price.is_proved and price.is_impossible == (price.cost is None) for price in found.values()))
            self.assertEqual([each.cost for each in prices.cheapest], sorted(cost for cost in wanted.values() if cost is not None))
            self.assertEqual((state_of(bench), prices.is_ended), (before, True))
            for price in prices.cheapest:
                self.check(bench, price, prices.timetable(price.value), prices.timetable(price.value)[event])

    def check(self, bench: Bench, price: Price, times: Mapping[int, int], value: int) -> None:
        """A timetable has the value, and meets everything at the price."""
        with bench.trial():
            bench.set_times(times)
            self.assertEqual((len(bench.violations()), bench.cost(), value), (0, price.cost, price.value))

    def test_activities(self) -> None:
        """By all timetables, also if a span is longer than a period."""
        for seed in range(100, 100 + max(2, 12 // SLOWER)):
            bench, draw = self.small(seed)
            activity, before = draw.choice(list(bench.network.activities.values())), state_of(bench)
            last = min(activity.upper, activity.lower + bench.period - 1)
            wanted: Costs = dict.fromkeys(range(activity.lower, last + 1))
            for times, cost in timetables(bench.network):
                tension = activity.lower + activity.slack(bench.period, times)
                least = wanted[tension]
                wanted[tension] = cost if least is None else min(least, cost)
            prices = bench.prices(activity=activity.number)
            found = prices.found()
            self.assertEqual({value: price.cost for value, price in found.items()}, wanted)
            self.assertEqual((all(price.is_proved for price in found.values()), state_of(bench)), (True, before))
            for price in prices.cheapest:
                taken = prices.timetable(price.value)
                self.check(bench, price, taken, activity.lower + activity.slack(bench.period, taken))

    def test_within(self) -> None:
        """Up to a cost they are the same, and above it a bound reports that."""
        for seed in range(200, 200 + max(2, 12 // SLOWER)):
            bench, draw = self.small(seed)
            event, activity, cap = draw.choice(bench.network.events), draw.choice(list(bench.network.activities)), draw.randrange(12)
            for prices, capped in [(bench.prices(event=event), bench.prices(event=event, within=cap)),
                                   (bench.prices(activity=activity), bench.prices(activity=activity, within=cap))]:  # fmt: skip
                for one, other in zip(prices.found().values(), capped.found().values()):
                    if one.cost is not None and one.cost <= cap:
                        self.assertEqual(one, other)
                    elif not other.is_impossible:
                        self.assertTrue(other.is_above(cap) and (other.cost is None or one.cost is not None and other.cost >= one.cost), (one, other))

    def test_all(self) -> None:
        """Those of each event, with threads, and with processes of this machine."""
        bench, _ = self.small(7)
        wanted = {event: bench.prices(event=event).found() for event in bench.network.events}
        came: Dict[int, Dict[int, Price]] = {}
        with ThreadPoolExecutor(2) as executor:
            self.assertEqual(all_prices(bench, executor=executor, watch=came.__setitem__), wanted)
        self.assertEqual(came, wanted)
        event = bench.network.events[0]
        self.assertEqual(all_prices(bench, [event, event], workers=1, progress=False, within=1), {event: bench.prices(event=event, within=1).found()})
        wrong: List[Dict[str, Any]] = [{"events": [99]}, {"within": -1}, {"seconds": -1.0}, {"workers": 0}]
        for words in wrong:
            self.assertRaises(ValueError, all_prices, bench, **words)

    def test_wrong_words(self) -> None:
        bench = self.two_trains()
        wrong: List[Dict[str, Any]] = [{}, {"event": 1, "activity": 1}, {"event": 3}, {"activity": 3}, {"event": 1, "within": -1}]
        for words in wrong:
            self.assertRaises(WrongWords, bench.prices, **words)
        self.assertRaises(ValueError, bench.prices, event=1, seconds=-1.0)
        self.assertRaises(ValueError, bench.prices, event=1, nodes=0)
        self.assertRaises(TypeError, bench.prices, event="1")
        self.assertEqual(bench.prices(event=Whole(1), within=Whole(9)).found()[0].cost, 4)  # type: ignore[arg-type]

    def test_a_changed_network(self) -> None:
        """Times may change between two steps, but not the network; and no journal is needed."""
        bench = self.two_trains(journal="none")
        prices = bench.prices(event=1)
        next(prices)
        bench.set_times({1: 0, 2: 4})
        self.assertEqual((len(prices.known), len(prices.found()), bench.times), (1, 10, {1: 0, 2: 4}))
        bench.fix(2, 0)
        self.assertRaises(ValueError, next, prices)
        self.assertRaises(ValueError, prices.timetable, 99)


# An event at 0, 2, 3 or 7, on which a search finds more with more nodes; one search of the first program hangs.
PRICES = r"""
known = answer.__dict__.setdefault("known", {})
words = line.split()
if line == "dump":
    write(b"# period 10 lines 2\nadd event 1\nadd event 2\n")
elif words[0] == "domain":
    write(b"1: 0 2 3 7\n")
elif words[0] == "violations":
    write(b"violations 0\n")
elif words[0] == "cost":
    write(b"cost 9\n")
elif words[0] == "try":
    with open(pathlib.Path(__file__).with_name("tries"), "a") as file:
        file.write(f"{known['fix']} {words[1]}\n")
    if start == 1 and (known["fix"], words[1]) == ("7", "4000") and HANGS:
        time.sleep(600)
    told = {"0": "optimum 5", "2": "stopped 9,optimum 8", "3": "stopped none,infeasible", "7": "stopped 6,stopped 6,optimum 6"}[known["fix"]].split(",")
    reply = told[min(len(told), {1000: 1, 4000: 2}.get(int(words[1]), 3)) - 1]
    write(f"{reply} 2\n1 {known['fix']}\n2 1\n".encode() if reply[-1].isdigit() else f"{reply}\n".encode())
else:
    if words[0] == "fix":
        known["fix"] = words[2]
    write(b"ok\n")
"""
FIRST = ["0 1000", "2 1000", "3 1000", "7 1000"]
REST = ["7 4000", "2 4000", "3 4000", "7 16000"]
COSTS = {0: 5, 2: 8, 3: None, 7: 6}


class OverPipes(Case):
    """The order of the questions, and what ends them."""

    def opened(self, hangs: bool = False) -> Bench:
        bench = Bench.open(None, period=10, program=self.stand_in(PRICES.replace("HANGS", str(hangs))))
        self.addCleanup(bench.close)
        bench.many(["time 1 0", "time 2 0", "window 1 0 8"])
        return bench

    def tries(self) -> List[str]:
        path = self.folder / "tries"
        return path.read_text().splitlines() if path.exists() else []

    def check(self, prices: Prices) -> None:
        """All is known in the end."""
        found = prices.found()
        self.assertEqual({value: found[value].cost for value in COSTS}, COSTS)
        self.assertTrue(all(price.is_proved for price in found.values()))

    def test_the_order(self) -> None:
        """Values that the domain excludes come at once, then those from the present time on, and then the cheapest first."""
        told: List[Price] = []
        bench = self.opened()
        before, prices = state_of(bench), bench.prices(event=1, watch=told.append)
        came = list(prices)
        self.assertEqual([each.value for each in came[:6]], [1, 9, 8, 4, 6, 5])
        self.assertTrue(all(each.is_impossible for each in came[:6]))
        self.assertEqual([(each.value, each.cost, each.lower_bound, each.is_proved) for each in came[6:]], [
            (0, 9, None, False), (0, 5, 5, True), (2, 9, None, False), (3, None, None, False), (7, 6, None, False), (2, 8, 8, True),
            (3, None, None, True), (7, 6, 6, True),
        ])  # fmt: skip
        self.assertEqual((self.tries(), told, state_of(bench)), (FIRST + REST, came, before))
        self.assertEqual([each.value for each in prices.cheapest], [0, 7, 2])
        self.assertEqual(prices.timetable(7), {1: 7, 2: 1})

    def test_the_caller_stops(self) -> None:
        """No more questions follow, `undo` reverts the last own change, and the iteration can resume."""
        bench = self.opened()
        before, prices = state_of(bench), bench.prices(event=1)
        for price in prices:
            if price.value == 2:
                break
        self.assertEqual((self.tries(), state_of(bench)), (FIRST[:2], before))
        self.assertEqual(bench.undo(), ["window 1 0 8"])
        bench.window(1, 0, 8)
        self.check(prices)
        for price in bench.prices(event=1):
            break
        del price
        gc.collect()
        self.assertEqual((state_of(bench), (self.folder / "stand-in.starts").read_text()), (before, "s"))

    def test_interrupt(self) -> None:
        """At Ctrl-C the known prices are kept, and nothing has changed."""
        bench = self.opened(hangs=True)
        before, prices = state_of(bench), bench.prices(event=1)
        interrupt_when(lambda: "7 4000" in self.tries())
        self.assertRaises(KeyboardInterrupt, prices.found)
        self.assertEqual((state_of(bench), prices.known[7].cost, prices.known[2].cost, prices.is_ended), (before, 6, 9, False))
        self.assertEqual(bench.undo(), ["window 1 0 8"])
        bench.window(1, 0, 8)
        self.check(prices)

    def test_out_of_time(self) -> None:
        bench = self.opened(hangs=True)
        before, prices = state_of(bench), bench.prices(event=1, seconds=2)
        began = time.monotonic()
        found = prices.found()
        self.assertLess(time.monotonic() - began, SOON)
        self.assertEqual((state_of(bench), found[7].is_proved, found[7].cost, prices.is_ended, list(prices)), (before, False, 6, False, []))
        prices.extend(60)
        self.check(prices)
        self.assertEqual(state_of(bench), before)
        self.assertRaises(ValueError, prices.extend, -1)

    def test_the_program_dies(self) -> None:
        bench = self.opened(hangs=True)
        before, prices = state_of(bench), bench.prices(event=1)
        with mock.patch.object(bench._session, "searched", side_effect=RuntimeError):
            self.assertRaises(RuntimeError, prices.found)
        self.assertEqual(state_of(bench), before)


class ByCall(Case):
    """A stand-in of a library that has the calls for prices."""

    STATES = {**dict.fromkeys(steps_to(1_000), (0, 0, 3)), 4_000: (1, 8, 4), 16_000: (2, 7, 7)}

    def opened(self, **missing: Any) -> Bench:
        def price(number: int, residue: int, nodes: int) -> Tuple[int, int, int]:
            return (3, 0, 0) if residue == 4 else self.STATES[nodes]

        def answer(line: bytes) -> object:
            return usual(line, {b"domain 1": lambda: b"1: 3 4\n", b"try 16000": lambda: b"stopped none\n", b"try 64000": lambda: b"optimum 7 1\n1 3\n"})

        self.library = StandIn(answer, price=price)  # type: ignore[arg-type]
        loading = mock.patch("pespbench.library.loaded", return_value=self.library.calls()._replace(**missing))
        loading.start()
        self.addCleanup(loading.stop)
        bench = Bench.open(None, period=10, engine=Engine("library", "stand-in"))
        self.addCleanup(bench.close)
        bench.add_event(1)
        return bench

    def test_prices(self) -> None:
        """There are no edits, each turn reports a bound, and the timetable is searched for on request."""
        bench = self.opened()
        del self.library.lines[:]
        prices = bench.prices(event=1)
        told = [(each.value, each.cost, each.lower_bound, each.is_proved) for each in prices if each.value in (3, 4)]
        self.assertEqual(told, [(3, None, 3, False), (4, None, None, True), (3, 8, 4, False), (3, 7, 7, True)])
        asked = [b"domain 1", *(b"pesp_price 1 3 %d" % nodes for nodes in steps_to(1_000)), b"pesp_price 1 4 10", b"pesp_price 1 3 4000", b"pesp_price 1 3 16000"]
        self.assertEqual((list(self.library.lines), prices.known[3].times), (asked, {}))
        self.assertRaises(ValueError, bench.take, prices.known[3])
        self.assertEqual((prices.timetable(3), bench.journal), ({1: 3}, ["add event 1"]))
        bench.take(prices.known[3])
        self.assertEqual(bench.times, {1: 3})

    def test_the_least_cost(self) -> None:
        """A cost that equals its bound is the least, if not yet that of an optimum."""
        bench = self.opened()
        with mock.patch.object(self, "STATES", {10: (1, 7, 7)}):
            prices = bench.prices(event=1)
            self.assertEqual((prices.found()[3], prices.is_ended, b"pesp_price 1 3 1000" in self.library.lines), (Price(3, 7, 7, True), True, False))

    def test_tensions(self) -> None:
        """Each is requested within the period, and the activity's own cost is added."""
        bench = self.opened()
        bench.add_activity(Activity(2, 1, 1, 8, 25, 2))
        del self.library.lines[:]
        found = bench.prices(activity=2).found()
        self.assertEqual({value: price.cost for value, price in found.items()}, {**dict.fromkeys(range(8, 18)), 9: 9, 10: 11, 11: 13})
        rounds = (steps_to(1_000), [4_000], [16_000])
        asked = [b"pesp_price_tension 2 %d %d" % (residue, nodes) for steps in rounds for residue in (9, 0, 1) for nodes in steps]
        self.assertEqual((list(self.library.lines), bench.journal[1:]), ([b"domain 1"] * 2 + asked, ["add activity 2 1 1 8 25 2"]))

    def test_a_library_without_tensions(self) -> None:
        """A tension is tried by lines, as without a library."""
        bench = self.opened(price_tension=None)
        bench.add_activity(Activity(2, 1, 1, 10, 10, 0))
        self.assertEqual((bench.prices(activity=2, nodes=16_000, seconds=5).found()[10], b"span 2 10 10" in self.library.lines), (Price(10, 7, 7, True), True))

    def test_within(self) -> None:
        """A bound above the cap ends it."""
        prices = self.opened().prices(event=1, within=2)
        self.assertEqual((prices.found()[3], b"pesp_price 1 3 4000" in self.library.lines), (Price(3, None, 3), False))


@over_both
class TryMove(Case):
    """The effect of a move."""

    def test_moves(self) -> None:
        with self.drawn(4, 12, 30) as bench:
            draw = random.Random(4)
            bench.set_times({event: draw.randrange(60) for event in range(12)})
            before, cost = state_of(bench), bench.cost()
            for _ in range(20):
                event, minute = draw.randrange(12), draw.randrange(60)
                with bench.trial():
                    bench.time(event, minute)
                    wanted = bench.cost() - cost, bench.violations()
                tried = bench.try_move(event, minute)
                self.assertEqual(((tried.change, tried.violations), state_of(bench)), (wanted, before))

    def test_refusals(self) -> None:
        bench = self.two_trains(times=self.times({1: 0, 2: 3}))
        self.assertEqual(bench.try_move(2, 4), bench.try_move(Whole(2), Whole(4)))  # type: ignore[arg-type]
        self.assertEqual((bench.try_move(2, 4).change, bench.try_move(2, 9).violations), (1, Violations((1, 2), ())))
        for event, minute, kind in [(7, 0, Refused), (1, 10, Refused), (-1, 0, Fault), (2**32 + 1, 0, Fault), (1, 65_535, Refused), (1, 65_540, Fault)]:
            self.assertRaises(kind, bench.try_move, event, minute)
        self.assertRaises(TypeError, bench.try_move, 1.0, 0)
        bench.untime(2)
        before = state_of(bench)
        with self.assertRaises(Refused) as told:
            bench.try_move(1, 0)
        self.assertEqual((told.exception.number, state_of(bench)), (11, before))

    def times(self, times: Dict[int, int]) -> str:
        """A file of times."""
        (self.folder / "times").write_text("".join(f"{event}; {time}\n" for event, time in times.items()))
        return str(self.folder / "times")


@over_both
class Take(Case):
    """The result of a search becomes the working timetable."""

    def test_take(self) -> None:
        bench = self.two_trains()
        bench.fix(1, 3)
        bench.take(bench.optimum())
        self.assertEqual((bench.times, bench.undo(), bench.times), ({1: 3, 2: 7}, ["time 1 3", "time 2 7"], {}))
        prices = bench.prices(event=1)
        self.assertEqual(prices.found()[3].cost, 4)
        self.assertEqual(prices.timetable(3)[1], 3)
        for found in (bench.search(60).found(), bench.near({1: 3, 2: 0}).found(), prices.known[3], bench.attempt(10**6)):
            bench.take(found)
            self.assertEqual(bench.times[1], 3)
        before = state_of(bench)
        for nothing in (Stopped(), Infeasible(), Price(4, 7), Optimum(3, {})):
            self.assertRaisesRegex(ValueError, "there is no timetable to take", bench.take, nothing)
        self.assertEqual(state_of(bench), before)

    def test_a_large_one(self) -> None:
        """A price of a network on which a search takes a while: the result in time is reported."""
        with Bench.from_script("\n".join(drawn_script(11, 60, 150)), **self.how) as bench:
            before = state_of(bench)
            prices = bench.prices(event=0, seconds=1, nodes=10)
            found = prices.found()
            self.assertEqual((len(found) <= 60, state_of(bench)), (True, before))


if __name__ == "__main__":
    unittest.main()
