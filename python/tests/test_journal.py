"""The journal: undo, trials, and a restarted program."""

from __future__ import annotations

import random
import signal
import threading
import time
import unittest
from typing import List, Union

from pespbench import Bench, NotKept, Optimum, Refused, Stopped, Window
from tests.common import EXAMPLES, SOON, Case, drawn_changes, over_both


@over_both
class TakenBack(Case):
    """Undo and trials."""

    def test_undo(self) -> None:
        bench = self.two_trains(times=EXAMPLES / "two-trains/times")
        self.assertRaises(ValueError, bench.undo)
        before = bench.dump()
        bench.fix(1, 0)
        bench.adopt()
        bench.set_times({1: 1})
        self.assertEqual(bench.journal, ["fix 1 0", "time 2 4", "untime 2", "time 1 1"])
        self.assertEqual(bench.undo(), ["untime 2", "time 1 1"])
        self.assertEqual((bench.times, bench.cost()), ({1: 0, 2: 4}, 4))
        self.assertEqual(bench.undo(), ["time 2 4"])
        self.assertEqual((bench.times, bench.cost()), ({1: 0, 2: 3}, 3))
        self.assertEqual(bench.undo(), ["fix 1 0"])
        self.assertEqual((bench.dump(), bench.journal), (before, []))

    def test_undo_of_a_dropped_event(self) -> None:
        bench = self.two_trains()
        bench.many(["add event 5", "fix 5 3", "time 5 4"])
        bench.drop_event(5)
        bench.undo()
        self.assertEqual((bench.times, bench.network.text()), ({5: 4}, bench.dump()))

    def test_trial(self) -> None:
        bench = self.two_trains()
        before = bench.dump()
        bench.fix(2, 1)
        with self.assertRaises(KeyError), bench.trial():
            bench.span(1, 0, 9)
            with bench.trial():
                bench.drop_activity(2)
                self.assertEqual(len(bench.network.activities), 1)
            self.assertEqual(len(bench.network.activities), 2)
            bench.undo()
            self.assertRaises(ValueError, bench.undo)
            raise KeyError
        self.assertEqual(bench.journal, ["fix 2 1"])
        bench.undo()
        self.assertEqual(bench.dump(), before)

    def test_drawn_changes(self) -> None:
        """Whatever is accepted, refused and undone, the client and the program agree."""
        for seed in range(30):
            draw = random.Random(seed)
            with Bench.open(None, period=7, **self.how) as bench:
                bench.many(drawn_changes(draw, 7, 40))
                before, times = bench.dump(), bench.times
                self.assertEqual(bench.network.text(), before)
                with bench.trial():
                    bench.many(drawn_changes(draw, 7, 60))
                    self.assertEqual(bench.network.text(), bench.dump())
                    for _ in range(draw.randrange(20)):
                        if len(bench._session.journal) > bench._session.floor:
                            bench.undo()
                    self.assertEqual(bench.network.text(), bench.dump())
                    known = bench.many(["cost", "violations", "tensions"])
                    bench._session.drop()
                    self.assertEqual(str(bench.many(["cost", "violations", "tensions"])), str(known))
                self.assertEqual((bench.network.text(), bench.dump(), bench.times), (before, before, times))
                while bench.journal:
                    bench.undo()
                self.assertEqual((bench.dump(), bench.times), ("# period 7 lines 0\n", {}))


@over_both
class Bounded(Case):
    """A journal that keeps the last changes, or none."""

    # A journal that keeps nothing, or one change.
    NONE: List[Union[int, str]] = ["none", 0]
    FEW: List[Union[int, str]] = ["none", 1]

    def opened(self, journal: Union[int, str]) -> Bench:
        return self.two_trains(times=EXAMPLES / "two-trains/times", journal=journal)

    def test_the_last(self) -> None:
        bench = self.opened(3)
        bench.many(["fix 1 0", "time 2 5", "weight 1 9"])
        bench.time(2, 6)
        bench.set_times({1: 0, 2: 4})
        self.assertEqual(bench.journal, ["weight 1 9", "time 2 6", "time 2 4"])
        for wanted in (["time 2 4"], ["time 2 6"], ["weight 1 9"]):
            self.assertEqual(bench.undo(), wanted)
        for _ in range(2):
            with self.assertRaises(NotKept) as told:
                bench.undo()
        self.assertEqual(str(told.exception), "an earlier change cannot be taken back: the journal keeps the last 3 changes alone")
        self.assertIsInstance(told.exception, ValueError)
        self.assertEqual((bench.network.windows[1], bench.times, bench.journal), (Window(0), {1: 0, 2: 5}, []))
        self.assertEqual((bench.dump(), bench.cost()), (bench.network.text(), 5))
        bench.moves([(2, 1), (2, 2), (2, 3), (2, 4), (2, 5)])
        self.assertEqual([bench.undo()[0] for _ in range(3)], ["time 2 5", "time 2 4", "time 2 3"])
        self.assertRaises(NotKept, bench.undo)
        self.assertEqual(bench.times, {1: 0, 2: 2})

    def test_none(self) -> None:
        """Without a journal nothing can be undone; all accepted changes are there again after the engine has ended."""
        for journal in self.NONE:
            bench = self.opened(journal)
            with self.assertRaises(ValueError) as told:
                bench.undo()
            self.assertNotIsInstance(told.exception, NotKept)
            bench.many(["fix 1 0", "span 2 3 6", "add event 3"])
            bench.moves([(2, 5), (3, 1)])
            self.assertEqual(bench.journal, [])
            with self.assertRaises(NotKept) as kept:
                bench.undo()
            self.assertEqual(str(kept.exception), "an earlier change cannot be taken back: the journal keeps no changes")
            before = bench.dump(), bench.cost(), bench.times
            bench._session.drop()
            self.assertEqual((bench.dump(), bench.cost(), bench.times), before)

    def test_trials(self) -> None:
        """A trial, and times that are set as one change, keep what they need while they last."""
        for journal in self.FEW:
            bench = self.opened(journal)
            bench.many(["fix 1 0", "fix 1 1"])
            before, kept = (bench.dump(), bench.times), bench.journal
            with bench.trial():
                bench.moves([(2, 5), (2, 6), (2, 7)])
                with bench.trial():
                    bench.many(["unfix 1", "drop activity 1"])
                self.assertEqual(bench.undo(), ["time 2 7"])
                bench.set_times({2: 9})
                self.assertEqual(bench.journal, [*kept, "time 2 5", "time 2 6", "untime 1", "time 2 9"])
            self.assertEqual(((bench.dump(), bench.times), bench.journal), (before, kept))
            self.assertRaises(Refused, bench.set_times, {1: 1, 2: 2, 7: 1})
            self.assertEqual(((bench.dump(), bench.times), bench.journal), (before, kept))

    def test_files_and_scripts(self) -> None:
        script = "add event 1\nadd event 2\n"
        with Bench.from_script(script, journal=1, **self.how) as bench:
            self.assertRaises(ValueError, bench.undo)
            bench.many(["fix 1 0", "fix 2 0"])
            bench.save(self.folder)
            self.assertEqual(bench.undo(), ["fix 2 0"])
            self.assertRaises(NotKept, bench.undo)
        with Bench.load(self.folder, journal="none", **self.how) as bench:
            bench.unfix(1)
            self.assertRaises(NotKept, bench.undo)

    def test_no_journal(self) -> None:
        for wrong in (-1, "some", "", None, 1.5):
            self.assertRaises(ValueError, Bench.open, None, journal=wrong, **self.how)


class Hard(Case):
    """A test with a search that takes long."""

    def hard(self) -> Bench:
        """A network whose optimum is not found in a minute."""
        bench = self.drawn(11, 100, 320)
        self.addCleanup(bench.close)
        bench.many([f"span {activity} {activity % 60} {activity % 60 + 45}" for activity in range(320)])
        return bench


@over_both
class StartedAgain(Hard):
    """Searches that are killed."""

    def test_search_in_time(self) -> None:
        bench = self.hard()
        before = bench.dump()
        began = time.monotonic()
        found = bench.search(1.5).found()
        self.assertLess(time.monotonic() - began, SOON)
        self.assertIsInstance(found, Stopped)
        self.assertEqual(bench.dump(), before)
        bench.undo()

    def test_search_that_ends(self) -> None:
        with self.drawn(1, 12, 20) as bench:
            self.assertEqual(bench.search(60).found(), bench.optimum())
            self.assertIsInstance(bench.search(60).found(), Optimum)


class Interrupted(Hard):
    """Ctrl-C; over the library see tests.test_in_process, since the search continues there."""

    def test_interrupt(self) -> None:
        """Ctrl-C in a search: the accepted changes remain, and the bench answers soon."""
        bench = self.hard()
        bench.time(3, 7)
        before, journal = bench.dump(), bench.journal
        main = threading.main_thread().ident
        timer = threading.Timer(0.7, lambda: signal.pthread_kill(main or 0, signal.SIGINT))
        timer.start()
        self.assertRaises(KeyboardInterrupt, bench.optimum)
        timer.join()
        began = time.monotonic()
        self.assertEqual((bench.dump(), bench.journal, bench.times), (before, journal, {3: 7}))
        self.assertLess(time.monotonic() - began, SOON)


if __name__ == "__main__":
    unittest.main()
