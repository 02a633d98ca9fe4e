"""Engines that share a book, or a flow detail: what another one did is never lost, nor done again."""

import contextlib
import os
import sys
import unittest

import taskflow.engines
from taskflow import exceptions
from taskflow import retry
from taskflow import states
from taskflow import task
from taskflow.patterns import graph_flow, unordered_flow
from taskflow.persistence import backends
from taskflow.utils import persistence_utils

sys.path.insert(0, os.path.dirname(os.path.abspath(__file__)))
from cases import Case, line  # noqa: E402
from tasks_of_tests import Fail, Give, Note, Sum  # noqa: E402

from verified_taskflow import test  # noqa: E402


class Sharing(Case):
    """One engine looks at the book at some moment of another one's run, and runs behind it."""

    def setUp(self):
        super().setUp()
        self.begun = []

    def flow(self, at=None, does=None):
        """A flow of four tasks that give their names; the one of the name `at` calls `does` first."""
        begun = self.begun

        class Step(task.Task):
            def execute(self):
                begun.append(self.name)
                if self.name == at:
                    does()
                return self.name
        return line("f", *[Step(name, provides="of-" + name) for name in "abcd"])

    def looked(self):
        engine = self.load(self.flow(), book="x.book")
        engine.compile()
        engine.prepare()
        self.said = []
        engine.notifier.register("*", lambda state, details: self.said.append(state))
        return engine

    def check(self, engine):
        engine.run()
        self.assertEqual({"of-" + name: name for name in "abcd"}, engine.storage.fetch_all())
        self.assertEqual((states.SUCCESS, ["a", "b", "c", "d"]), (engine.storage.get_flow_state(), self.begun))
        self.assertEqual([states.RUNNING, states.SUCCESS], self.said)

    def test_the_other_begins_behind_the_look_and_ends(self):
        second = self.looked()
        self.load(self.flow(), book="x.book").run()
        self.check(second)

    def test_the_other_ends_behind_the_look(self):
        found = []
        self.load(self.flow("b", lambda: found.append(self.looked())), book="x.book").run()
        self.check(found[0])

    def test_the_other_is_suspended_behind_the_look(self):
        found = []
        first = self.load(self.flow("b", lambda: found.append(self.looked())), book="x.book")
        steps = first.run_iter()
        for state in steps:
            if state == states.WAITING and "c" in self.begun:
                first.suspend()
        self.assertEqual(states.SUSPENDED, first.storage.get_flow_state())
        self.check(found[0])

    def test_another_goes_on_with_what_was_suspended(self):
        first = self.load(self.flow("b", lambda: first.suspend()), book="x.book")
        first.run()
        self.assertEqual(states.SUSPENDED, first.storage.get_flow_state())
        second = self.load(self.flow("c", lambda: second.suspend()), book="x.book")
        second.run()
        self.said = []
        first.notifier.register("*", lambda state, details: self.said.append(state))
        self.check(first)

    def test_another_reverts_behind_the_look(self):
        class Fail(task.Task):
            def execute(self):
                found.append(case.load(flow, book="x.book"))
                found[-1].compile()
                found[-1].prepare()
                raise ValueError("no")
        case, found, flow = self, [], line("f", Give("a", provides="x"), Fail("b"))
        with self.assertRaises(ValueError):
            self.load(flow, book="x.book").run()
        with self.assertRaisesRegex(Exception, "no"):
            found[0].run()
        self.assertEqual((states.REVERTED, 1), (found[0].storage.get_flow_state(), len(found)))

    def test_another_runs_anew_what_was_reverted(self):
        class Once(task.Task):
            def execute(self):
                calls.append(self.name)
                if len(calls) == 1:
                    raise ValueError("no")
                return 7
        calls, flow = [], line("f", Once("a", provides="x"))
        first = self.load(flow, book="x.book")
        with self.assertRaises(ValueError):
            first.run()
        self.load(flow, book="x.book").run()
        first.run()
        self.assertEqual((states.SUCCESS, 7, 2), (first.storage.get_flow_state(), first.storage.fetch("x"), len(calls)))


class Changing(Case):
    """A flow that isn't the one of the book, though its atoms have the same names."""

    def stopped(self, flow, **options):
        """Runs a flow until its task `s` suspends it."""
        self.engine = self.load(flow, book="x.book", **options)
        self.engine.run()
        self.assertEqual(states.SUSPENDED, self.engine.storage.get_flow_state())

    def stop(self):
        case = self

        class Stop(task.Task):
            def execute(self):
                case.engine.suspend()
        return Stop("s")

    def test_another_flow_of_these_names_is_refused(self):
        def decided(decider):
            flow, one, other = graph_flow.Flow("f"), Give("s", 1), Note("b")
            flow.add(one, other)
            flow.link(one, other, decider=decider)
            return flow
        changes = (
            (line("f", self.stop(), Give("b"), Give("c")), unordered_flow.Flow("f").add(Give("c"), Give("b"), Give("s"))),
            (line("f", self.stop(), Give("b"), Give("c")), line("f", Give("s"), Give("c"), Give("b"))),
            (line("f", self.stop(), Give("b")), line("f", Give("s"), Sum("b", requires=["x"]))),
            (line("f", self.stop(), Give("b")), line("f", Give("s"), Give("b", provides="x"))),
            (line("f", self.stop(), Give("b")), line("f", Give("s"), Note("b"))),
            (line("f", self.stop(), Give("b")), line("f", line("g", Give("s"), Give("b")))),
            (line("f", self.stop(), Give("b"), retry=retry.Times(2, "r")),
             line("f", Give("s"), Give("b"), retry=retry.AlwaysRevert("r"))),
        )
        for at, (first, second) in enumerate(changes):
            with self.subTest(at):
                self.stopped(first)
                engine = self.load(second, book="x.book", store={"x": 1})
                with self.assertRaisesRegex(exceptions.InvalidState, "another flow of the name f"):
                    engine.run()
                self.assertIn("state f SUSPENDED", self.shown("x.book"))
                os.unlink("x.book")
        self.load(decided(test(equals=1)), book="y.book").run()
        with self.assertRaisesRegex(exceptions.InvalidState, "another flow of the name f"):
            self.load(decided(test(equals=2)), book="y.book").run()

    def test_another_flow_on_the_same_flow_detail_is_refused(self):
        for book in (None, "x.book"):
            self.engine = self.load(line("f", self.stop(), Give("b"), Give("c")), book=book)
            self.engine.run()
            detail, last = self.engine._flow_detail, Note("c")
            with self.assertRaisesRegex(exceptions.InvalidState, "another flow of the name f"):
                self.load(line("f", Give("s"), last, Give("b")), book=book, flow_detail=detail).run()
            self.load(line("f", Give("s"), Give("b"), Give("c", 7)), book=book, flow_detail=detail).run()
            self.assertEqual((7, []), (self.engine.storage.get("c"), last.calls))

    def test_what_changes_nothing_goes_on(self):
        self.stopped(line("f", self.stop(), Give("b"), retry=retry.Times(2, "r")))
        self.load(line("f", Give("s"), Give("b", 7), retry=retry.Times(3, "r")), book="x.book").run()
        os.unlink("x.book.forms")
        self.load(line("f", Give("b"), Give("s"), retry=retry.Times(2, "r")), book="x.book").run()
        os.unlink("x.book")
        self.stopped(line("f", self.stop(), Give("c")))
        self.load(line("f", Give("s"), Give("c")), book="x.book").run()
        self.assertEqual(0o600, os.stat("x.book.forms").st_mode & 0o777)

    def test_a_store_is_the_books(self):
        self.stopped(line("f", self.stop(), Note("b", requires=["x"])), store={"x": [1], "unused": object()})
        for store in ({"x": [2], "more": 3}, {}):
            engine = self.load(line("f", Give("s"), Note("b", requires=["x"])), book="x.book", store=store)
            engine.run()
            self.assertEqual([1], engine.storage.fetch("x"))
            self.assertEqual({"x": [1]}, engine.storage.get("b"))
            self.assertEqual(3 if store else None, engine.storage.fetch_all().get("more"))


class Details(Case):
    """A flow detail of a back end of TaskFlow, which another process or engine ran."""

    def make(self):
        self.back_end = backends.fetch({"connection": "memory"})
        with contextlib.closing(self.back_end.get_connection()) as connection:
            connection.upgrade()
        self.logbook, self.detail = persistence_utils.temporary_flow_detail(self.back_end)

    def run_with(self, engine, detail, *items):
        loaded = taskflow.engines.load(line("f", *items), flow_detail=detail, book=self.logbook, backend=self.back_end, engine=engine)
        loaded.run()
        return loaded

    def fetched(self):
        with contextlib.closing(self.back_end.get_connection()) as connection:
            return connection.get_logbook(self.logbook.uuid).find(self.detail.uuid)

    def test_what_it_has_is_not_run_again_but_refused(self):
        for engine in ("serial", "verified"):
            with self.subTest(engine):
                self.make()
                self.run_with(engine, self.detail, Give("a", 1))
                again = Note("a")
                with self.assertRaises(exceptions.InvalidState) as caught:
                    self.run_with("verified", self.fetched(), again)
                self.assertIn("a as SUCCESS", str(caught.exception))
                self.assertIn("book=", str(caught.exception))
                self.assertEqual([], again.calls)

    def test_a_reverted_one_runs_anew_and_the_same_detail_goes_on(self):
        for engine in ("serial", "verified"):
            with self.subTest(engine):
                self.make()
                with self.assertRaises(KeyError):
                    self.run_with(engine, self.detail, Note("a"), Fail("b"))
                first = Note("a")
                loaded = self.run_with("verified", self.fetched(), first, Give("b", 2))
                self.assertEqual((2, 1), (loaded.storage.get("b"), len(first.calls)))
                self.run_with("verified", loaded._flow_detail, first, Give("b", 3))
                self.assertEqual((2, 1), (loaded.storage.get("b"), len(first.calls)))


if __name__ == "__main__":
    unittest.main()
