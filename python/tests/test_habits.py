"""Python's conventions: tables, graphs, iteration, notebooks, other integers, and type errors."""

from __future__ import annotations

import re
import shutil
import unittest
from base64 import b64decode
from importlib import import_module, util
from typing import Any, Callable, Dict, List

from pespbench import Activity, ActivityRow, Bench, Domain, Found, Infeasible, Network, Optimum, Stopped, Tension, Violations, Window
from tests.common import EXAMPLES, PROGRAM, Case, Whole, over_both

ROWS = [(1, 1, 2, 3, 5, 2), (2, 2, 1, 4, 6, 1)]
BEST = {1: 0, 2: 4}


def needs(name: str) -> Callable[[Any], Any]:
    """Skips a test if another package is not installed."""
    return unittest.skipUnless(util.find_spec(name), f"{name} is not installed")


@over_both
class Tables(Case):
    """`of`, `rows` and `to_networkx`."""

    def made(self, given: Any, **more: Any) -> Bench:
        """A bench of the given network."""
        how: Dict[str, Any] = {**self.how, "period": 10, **more}
        bench = Bench.of(given, **how)
        self.addCleanup(bench.close)
        return bench

    def test_of_rows(self) -> None:
        names = ("activity", "from_event", "to_event", "lower", "upper", "weight")
        files = ("activity", "from", "to", "lower", "upper", "weight")
        forms: List[Any] = [ROWS, [Activity(*row) for row in ROWS], [list(map(Whole, row)) for row in ROWS], iter(ROWS)]
        forms += [[dict(zip(each, row)) for row in ROWS] for each in (names, files)]
        for given in forms:
            bench = self.made(given, times=BEST)
            self.assertEqual((bench.period, bench.times, bench.cost(), bench.journal), (10, BEST, 4, []))
            self.assertEqual(bench.network.activities, {row[0]: Activity(*row) for row in ROWS})
        self.assertEqual(self.made(ROWS, period=None).period, 60)

    def test_of_network(self) -> None:
        network = Network(10, {1: None, 2: Window(3, 4), 7: Window(2)}, {1: Activity(*ROWS[0])})
        bench = self.made(network, period=None)
        bench.fix(1, 0)
        self.assertEqual((bench.period, bench.network.windows), (10, {1: Window(0), 2: Window(3, 4), 7: Window(2)}))
        self.assertIsNone(network.windows[1])

    def test_rows(self) -> None:
        with Bench.load(EXAMPLES / "two-changes", **self.how) as bench:
            self.assertEqual({row[-3:] for row in bench.rows()}, {(None, None, None)})
            bench.set_times(dict.fromkeys(bench.network.windows, 0))
            rows, tensions, violations = bench.rows(), bench.tensions(), bench.violations()
            self.assertEqual(rows[0], ActivityRow(11, 1, 2, 24, 26, 120, "run", 60, 36, False))
            self.assertEqual({row.activity: (row.tension, row.slack) for row in rows}, {each: (row.tension, row.slack) for each, row in tensions.items()})
            self.assertEqual(tuple(row.activity for row in rows if not row.met), violations.activities)
            again = self.made(rows, period=60)
            self.assertEqual((again.network.activities, again.labels.activities), (bench.network.activities, bench.labels.activities))

    def test_faults(self) -> None:
        wrong: Dict[Any, Any] = {TypeError: [5, [5], [(1, 1, 2, 3, 5, 2.0)], [("1", 1, 2, 3, 5, 2)]], KeyError: [[(1, 1, 2, 3, 5)], [{"activity": 1}]], ValueError: [[ROWS[0], ROWS[0]]]}
        for fault, all_given in wrong.items():
            for given in all_given:
                self.assertRaises(fault, Bench.of, given, **self.how)

    @needs("pandas")
    def test_frames(self) -> None:
        pandas: Any = import_module("pandas")
        with Bench.load(EXAMPLES / "two-changes", **self.how) as bench:
            bench.span(42, 6, 10)
            bench.adopt()
            frame = pandas.DataFrame(bench.rows())
            self.assertEqual(tuple(frame.columns), ActivityRow._fields)
            self.assertEqual(((frame["slack"] * frame["weight"]).sum(), bool(frame["met"].all())), (bench.cost(), True))
            again = self.made(frame, period=60, times=pandas.Series(bench.times))
            again.set_times(pandas.Series(bench.times))
            self.assertEqual((again.rows(), again.cost()), (bench.rows(), bench.cost()))
            for kind in ("int32", "uint64"):
                spans = frame.drop(columns=["tension", "slack", "met", "kind"]).astype(kind)
                self.assertEqual(self.made(spans, period=60).network.activities, bench.network.activities)
            self.assertRaises(TypeError, self.made, frame.astype({"lower": float}))

    @needs("networkx")
    def test_graphs(self) -> None:
        networkx: Any = import_module("networkx")
        with Bench.load(EXAMPLES / "two-changes", **self.how) as bench:
            bench.time(1, 7)
            graph = bench.to_networkx()
            self.assertEqual((graph.graph, list(graph)), ({"period": 60}, bench.network.events))
            wanted = {"line": "M", "to": "Cranley", "station": "Ashford", "kind": "departure", "window": Window(3), "time": 7}
            self.assertEqual(graph.nodes[1], wanted)
            self.assertEqual(graph.edges[1, 2, 11], bench.rows()[0]._asdict())
            self.assertEqual(len(networkx.cycle_basis(networkx.Graph(graph))), 2)


class Answers(unittest.TestCase):
    """Each answer is iterable."""

    def test_iteration(self) -> None:
        self.assertEqual((list(Domain(1, (2, 5))), 5 in Domain(1, (2, 5)), 4 in Domain(1, (2, 5))), ([2, 5], True, False))
        self.assertEqual(tuple(Tension(1, 3, 0)), (1, 3, 0))
        self.assertEqual(list(Violations((4, 7), (2,))), [("activity", 4), ("activity", 7), ("event", 2)])
        all_found: List[Found] = [Optimum(4, BEST), Stopped(4, BEST), Stopped(), Infeasible()]
        self.assertEqual([dict(found) for found in all_found], [BEST, BEST, {}, {}])


@over_both
class Numbers(Case):
    """Integers of any kind are numbers, and everything else is a TypeError as usual."""

    def opened(self, period: Any) -> Bench:
        """The two trains at a period."""
        return Bench.open(EXAMPLES / "two-trains/activities", period=period, **self.how)

    def test_other_whole_numbers(self) -> None:
        wholes: List[Any] = [Whole]
        if util.find_spec("numpy"):
            wholes += [import_module("numpy").int64, import_module("numpy").uint8]
        for whole in wholes:
            bench, other = self.two_trains(), self.opened(whole(10))
            self.addCleanup(other.close)
            for each, number in ((bench, int), (other, whole)):
                each.fix(number(1), number(0))
                each.add_event(number(9))
                each.window(number(9), number(3), number(4))
                each.add_activity(Activity(*map(number, (7, 1, 9, 2, 8, 3))))
                each.span(number(7), number(1), number(8))
                each.set_times({number(1): number(0), number(2): number(4)})
                each.time(number(9), number(3))
            self.assertEqual((other.network, other.times, other.journal, other.cost()), (bench.network, bench.times, bench.journal, bench.cost()))
            self.assertEqual((other.domain(whole(9)), other.attempt(whole(50))), (bench.domain(9), bench.attempt(50)))
            self.assertEqual(other.search(5, nodes=whole(40)).found(), bench.optimum())

    def test_faults_of_types(self) -> None:
        bench: Any = self.two_trains(times=EXAMPLES / "two-trains/times")
        half: Any = 2.5
        before = bench.network.copy(), bench.times
        wrong = [lambda: bench.fix("1", 0), lambda: bench.fix(1, half), lambda: bench.time(1, None), lambda: bench.time("one", 0)]
        wrong += [lambda: bench.add_activity(Activity(7, 1, 2, half, 4, 1)), lambda: bench.set_times({1: 0.0}), lambda: bench.set_times(5)]
        wrong += [lambda: bench.ask(5), lambda: bench.many("cost"), lambda: bench.many(["cost", 5]), lambda: bench.attempt("9"), lambda: bench.search("9")]
        wrong += [lambda: bench.search(1.0, nodes=half), lambda: self.opened("60"), lambda: self.opened(10.0)]
        for place, call in enumerate(wrong):
            with self.subTest(place=place):
                self.assertRaises(TypeError, call)
        self.assertEqual((bench.network, bench.times), before)


class Notebooks(Case):
    """The display in a notebook."""

    def test_bench(self) -> None:
        with Bench.load(EXAMPLES / "two-changes", program=PROGRAM) as bench:
            self.assertIn("not known: event 1 has no time", bench._repr_html_())
            bench.set_times(dict.fromkeys(bench.network.windows, 0))
            told = bench._repr_html_()
            for text in ("8 events, 9 activities, period 60", f"{bench.cost():,}", "change at Benton from M to Cranley into B to Dale"):
                self.assertIn(text, told)
            found = re.search("base64,([^\"]*)", told)
            self.assertEqual(found is not None, shutil.which("node") is not None)
            if found:
                picture = b64decode(found[1]).decode()
                self.assertTrue(picture.startswith("<svg") and "Benton" in picture, picture[:50])
            bench.labels.activities[31] = "<b>&\x1b"
            self.assertIn("&lt;b&gt;&amp;\\x1b at Benton", bench._repr_html_())

    def test_network_and_search(self) -> None:
        with self.two_trains() as bench:
            told = bench.network._repr_html_()
            self.assertIn("<td>2</td><td>2</td><td>1</td><td>4</td><td>6</td><td>1</td>", told)
            search = bench.search(10.0)
            self.assertIn("undecided", search._repr_html_())
            search.found()
            self.assertIn("The best timetable costs 4.", search._repr_html_())
        many = Network(60, {1: None}, {number: Activity(number, 1, 1, 0, 0) for number in range(12)})
        self.assertIn("and 2 more", many._repr_html_())
        self.assertIn("0 events, 0 activities", Network(60)._repr_html_())


if __name__ == "__main__":
    unittest.main()
