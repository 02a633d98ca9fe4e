"""What is long or much: names, hands, paths."""

import os
import pathlib
import sys
import unittest
import unittest.mock

import taskflow.engines
from taskflow import exceptions
from taskflow import states
from taskflow import task
from taskflow.patterns import graph_flow

sys.path.insert(0, os.path.dirname(os.path.abspath(__file__)))
from cases import Case, line  # noqa: E402
from tasks_of_tests import Fail, Give, Note  # noqa: E402

from verified_taskflow import books  # noqa: E402

LONG = "cinder.volume.flows.manager.create_volume.CreateVolume%06d"


class Names(Case):
    def test_a_thousand_tasks_with_long_names_have_a_form(self):
        tasks = [Note(LONG % at, provides="result-of-the-step-%04d" % at, requires=["result-of-the-step-%04d" % (at - 1)] if at else [])
                 for at in range(1000)]
        self.load(line("f", *tasks)).compile()

    def test_tasks_with_long_names_run_and_are_undone(self):
        said = []

        class Tell(task.Task):
            def execute(self):
                said.append(self.name)

            def revert(self, **kwargs):
                said.append("undo " + self.name)
        flow = graph_flow.Flow("f").add(Tell(LONG % 1), Tell(LONG % 2), Tell("short"))
        flow.link(*[one for one in flow if one.name != "short"], decider=lambda history: said.append("asked") or True)
        engine = self.load(line("g", flow, Fail("b")), book="x.book")
        with self.assertRaises(KeyError):
            engine.run()
        self.assertLess(said.index(LONG % 1), said.index("asked"))
        self.assertLess(said.index("asked"), said.index(LONG % 2))
        self.assertEqual(sorted(["asked", LONG % 1, LONG % 2, "short"] + ["undo " + name for name in (LONG % 1, LONG % 2, "short")]),
                         sorted(said))
        self.assertIn('{task="short",kind="command",run=["short"]', engine.flow_file)
        self.assertEqual(1, engine.flow_file.count('"%s",kind' % (LONG % 1)))
        self.assertNotIn('run=["cinder', engine.flow_file)


class Hands(Case):
    def test_more_threads_than_hands_are_as_many_as_there_may_be(self):
        for options in ({"max_workers": 100}, {"max_workers": "100"}):
            engine = self.load(line("f", Give("a")), **options)
            engine.run()
            self.assertEqual((64, states.SUCCESS), (engine._hands, engine.storage.get_flow_state()))
        for options in ({"hands": 100}, {"max_workers": 0}):
            with self.assertRaises(ValueError):
                self.load(line("f", Give("a")), **options)


class Paths(Case):
    def test_a_folder_that_sockets_cannot_have_is_passed_by(self):
        good = os.path.abspath("good")
        for name in ("with,comma", "d" * 80, "good"):
            os.mkdir(name)
        for bad in ("with,comma", "d" * 80, "nowhere"):
            with unittest.mock.patch.object(books, "folders", lambda: (os.path.abspath(bad), good)):
                engine = self.load(line("f", Give("a")))
                engine.run()
                self.assertEqual((good, states.SUCCESS), (os.path.dirname(engine._place.home.folder), engine.storage.get_flow_state()))
        with unittest.mock.patch.object(books, "folders", lambda: (os.path.abspath("with,comma"),)):
            with self.assertRaisesRegex(exceptions.StorageFailure, "with,comma"):
                self.load(line("f", Give("a"))).compile()

    def test_a_folder_is_no_book(self):
        for path in ("", ".", pathlib.Path(""), os.getcwd()):
            with self.assertRaisesRegex(ValueError, "a book is a file, not"):
                self.load(line("f", Give("a")), book=path)
        with self.assertRaisesRegex(ValueError, "a book is a file, not"):
            taskflow.engines.load(line("f", Give("a")), engine="verified:?book=.")


if __name__ == "__main__":
    unittest.main()
