"""Values that stay in this process, where no book is kept: who takes one gets the object itself, as TaskFlow hands it on."""

import gc
import os
import sys
import unittest
import weakref

import taskflow.engines
from taskflow import retry
from taskflow import task
from taskflow.patterns import graph_flow

sys.path.insert(0, os.path.dirname(os.path.abspath(__file__)))
from cases import Case, line  # noqa: E402
from tasks_of_tests import Fail, Give, Note  # noqa: E402

from verified_taskflow import test, values  # noqa: E402


class Identity(Case):
    def takers(self, engine):
        """What two takers of one list count, what they got, and the list and the log of the store behind a run."""
        made, log = [], []

        class Make(task.Task):
            default_provides = "x"

            def execute(self, log):
                log.append(self.name)
                made.append([0])
                return made[0]

        class Count(task.Task):
            def execute(self, x, log):
                log.append(self.name)
                made.append(x)
                x[0] += 1
                return x[0]
        loaded = taskflow.engines.load(line("f", Make("m"), Count("c"), Count("d")), engine=engine, store={"log": log})
        loaded.run()
        self.assertTrue(all(one is made[0] for one in made))
        return [loaded.storage.get(name) for name in "cd"], loaded.storage.fetch("x"), loaded.storage.fetch("log"), log

    def test_takers_share_what_serial_takers_share(self):
        self.assertEqual(self.takers("serial"), self.takers("verified"))

    def test_several_symbols_and_tried_values_are_the_objects(self):
        one, other, taker, tried = [1], {"a": 1}, Note("t", requires=["x", "y", "z"]), []
        flow = line("f", Give("g", (one, other), provides=("x", "y")), taker, retry=retry.ForEach([tried], "r", provides="z"))
        self.load(flow).run()
        for symbol, thing in (("x", one), ("y", other), ("z", tried)):
            self.assertIs(thing, taker.calls[0][1][symbol])

    def test_long_stores_have_room(self):
        store = {"v%d" % at: "y" * 60_000 for at in range(5)}
        taker = Note("a", requires=sorted(store))
        engine = self.load(line("f", taker), store=store)
        engine.run()
        self.assertEqual(store, taker.calls[0][1])
        self.assertLess(len(engine.flow_file), 1_000)

    def test_a_test_for_a_long_text_holds(self):
        for length in (values.SHORT, values.SHORT + 1, 100_000):
            for wanted, goes in (("y" * length, True), ("y" * length + "z", False)):
                one, other = Give("a", "y" * length), Note("b")
                flow = graph_flow.Flow("g").add(one, other)
                flow.link(one, other, decider=test(equals=wanted))
                self.load(flow).run()
                self.assertEqual(goes, bool(other.calls), length)


class Thing:
    pass


class Memory(Case):
    def alive(self, engine):
        """How many of the objects are alive at most as a task begins that is tried 8 times, and behind the runs."""
        things, counts = weakref.WeakSet(), []

        class Make(task.Task):
            def execute(self):
                gc.collect()
                counts.append(len(things))
                thing = Thing()
                things.add(thing)
                return thing
        loaded = taskflow.engines.load(line("f", Make("m", provides="x"), Fail("b"), retry=retry.Times(8, "r")),
                                       engine=engine)
        for _ in range(2):
            with self.assertRaises(KeyError):
                loaded.run()
        gc.collect()
        return max(counts), len(things)

    def test_results_of_earlier_attempts_are_let_go(self):
        self.assertEqual(self.alive("serial"), self.alive("verified"))

    def test_a_store_stays_once_however_often_it_is_written(self):
        thing, taker = Thing(), Note("a", requires=["x"])
        engine = self.load(line("f", taker), store={"x": thing})
        for _ in range(3):
            engine.run()
            engine.reset()
        self.assertEqual([thing] * 3, [call[1]["x"] for call in taker.calls])
        self.assertEqual(1, engine.flow_file.count("object ["))
        self.assertIn("object [0]", engine.flow_file)


if __name__ == "__main__":
    unittest.main()
