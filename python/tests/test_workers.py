"""Workers in other processes: what they perform, what is refused, and what happens where they are gone."""

import os
import pathlib
import subprocess
import sys
import unittest

from taskflow import exceptions
from taskflow import states
from taskflow import task
from taskflow.patterns import unordered_flow

sys.path.insert(0, os.path.dirname(os.path.abspath(__file__)))
from cases import HERE, SITE, Case, line  # noqa: E402
from tasks_of_tests import Add, Die, Fail, Odd, Same  # noqa: E402

from verified_taskflow import Unsupported  # noqa: E402


class Needs(task.Task):
    """Isn't made with its name alone."""

    def __init__(self, name, size):
        super().__init__(name)

    def execute(self):
        pass


class Stranger(task.Task):
    """A class of a module that no worker of these tests has."""

    def execute(self):
        pass


class Workers(Case):
    def words(self, address):
        return [sys.executable, "-m", "verified_taskflow.worker", "tasks_of_tests", "--address", address]

    def environment(self):
        return dict(os.environ, PYTHONPATH="%s:%s" % (SITE, HERE))

    def start(self, address):
        process = subprocess.Popen(self.words(address), stdout=subprocess.PIPE, env=self.environment())
        self.addCleanup(process.stdout.close)
        self.addCleanup(process.wait)
        self.addCleanup(process.kill)
        self.assertEqual(b"listening at %b\n" % address.encode(), process.stdout.readline())
        return process

    def test_tasks_are_performed_elsewhere(self):
        self.start("unix:w.socket")
        self.assertEqual(0o600, os.stat("w.socket").st_mode & 0o777)
        flow = line("f", unordered_flow.Flow("u").add(Add("a", provides="x"), Add("b", provides="y", rebind={"one": "n"})),
                    Add("c", rebind={"one": "x", "other": "y"}, provides="z"), Fail("d"))
        engine = self.load(flow, store={"one": 1, "n": 10}, book="x.book", workers=["unix:w.socket", "unix:w.socket"])
        with self.assertRaises(exceptions.WrappedFailure) as caught:
            engine.run()
        self.assertIn("KeyError: 'the disk is full'", str(caught.exception))
        self.assertEqual({"2 11 13", "1 1 2", "10 1 11"},
                         {row.split(" [")[0] for row in pathlib.Path("undone").read_text().splitlines()})
        self.assertIn("Failure: KeyError", pathlib.Path("undone").read_text())

    def test_a_lost_worker_fails_its_task(self):
        process = self.start("unix:w.socket")
        engine = self.load(line("f", Add("a"), Add("b")), store={"one": 1}, workers=["unix:w.socket"])
        steps = engine.run_iter()
        while next(steps) != states.WAITING:
            pass
        process.kill()
        process.wait()
        with self.assertRaises(exceptions.ExecutionFailure) as caught:
            list(steps)
        self.assertIn("b was lost at the worker unix:w.socket", str(caught.exception))
        with self.assertRaises(exceptions.ExecutionFailure):
            self.load(line("g", Add("a")), store={"one": 1}, workers=["unix:w.socket"]).run()

    def refused(self, thing, reason):
        with self.assertRaises(Unsupported) as caught:
            self.load(line("f", thing), workers=["unix:w.socket"]).compile()
        self.assertEqual(thing.name, caught.exception.name)
        self.assertIn(reason, caught.exception.reason)

    def test_what_a_worker_cannot_make_is_refused(self):
        class Local(task.Task):
            def execute(self):
                pass

        class Main(task.Task):
            def execute(self):
                pass
        Main.__module__, Main.__qualname__ = "__main__", "Main"
        sys.modules["__main__"].Main = Main
        self.addCleanup(delattr, sys.modules["__main__"], "Main")
        self.refused(Local("a"), "isn't one that a worker finds as module:Class")
        self.refused(Main("a"), "isn't one that a worker finds as module:Class")
        self.refused(task.FunctorTask(print, "a"), "isn't made with a name alone")
        self.refused(Needs("a", 4), "isn't made with a name alone")

    def test_what_is_no_address_is_refused(self):
        for address in ("there", "unix:", "tcp:localhost", "tcp:127.0.0.1:", "tcp::80", "tcp:127.0.0.1:eighty", "tcp:127.0.0.1:65536", 4):
            with self.subTest(address), self.assertRaisesRegex(ValueError, "a worker's address is"):
                self.load(line("f", Add("a")), workers=[address])

    def test_without_a_book_long_values_go_to_a_worker_and_back(self):
        self.start("unix:w.socket")
        for book, size in ((None, 200_000), (None, 3_000_000), ("x.book", 20_000)):
            store = {"one": [["y\n\"é"] * (size // 4), {"k": (1, {2})}]}
            engine = self.load(line("f", Same("a")), store=store, workers=["unix:w.socket"], **({"book": book} if book else {}))
            engine.run()
            self.assertEqual(store["one"], engine.storage.get("a"))

    def test_what_cannot_be_sent_is_told(self):
        self.start("unix:w.socket")
        for value, reason in ((object(), "the argument one of a is of the type builtins.object"),
                              ("y" * 9_000_000, "the argument one of a has 9000009 bytes as JSON, above 8388608")):
            engine = self.load(line("f", Same("a")), store={"one": value}, workers=["unix:w.socket"])
            with self.assertRaisesRegex(TypeError, reason):
                engine.run()
        with self.assertRaisesRegex(exceptions.WrappedFailure, "NotKept: the result of a is of the type builtins.object"):
            self.load(line("f", Odd("a")), workers=["unix:w.socket"]).run()

    def test_a_class_that_a_worker_has_not_is_told(self):
        self.start("unix:w.socket")
        with self.assertRaisesRegex(exceptions.ExecutionFailure, "a failed at its worker: it was started without the module test_workers"):
            self.load(line("f", Stranger("a")), workers=["unix:w.socket"]).run()

    def test_a_worker_starts_again_where_it_was_killed_and_takes_its_socket_with_it(self):
        self.start("unix:w.socket").kill()
        process = self.start("unix:w.socket")
        other = subprocess.run(self.words("unix:w.socket"), env=self.environment(), stdout=subprocess.PIPE, stderr=subprocess.PIPE)
        self.assertIn(b"Address already in use", other.stderr)
        self.load(line("f", Add("a")), store={"one": 1}, workers=["unix:w.socket"]).run()
        process.terminate()
        self.assertEqual(0, process.wait())
        self.assertFalse(os.path.exists("w.socket"))
        pathlib.Path("w.socket").write_text("no socket")
        other = subprocess.run(self.words("unix:w.socket"), env=self.environment(), stdout=subprocess.PIPE, stderr=subprocess.PIPE)
        self.assertIn(b"Address already in use", other.stderr)
        self.assertEqual("no socket", pathlib.Path("w.socket").read_text())

    def test_a_worker_that_starts_again_between_two_tasks_is_dialled_again(self):
        processes = [self.start("unix:w.socket")]

        def again(state, details):
            if details["task_name"] == "a":
                processes[0].kill()
                processes[0].wait()
                processes.append(self.start("unix:w.socket"))
        engine = self.load(line("f", Add("a", provides="x"), Add("b", rebind={"one": "x"})), store={"one": 1}, workers=["unix:w.socket"])
        engine.atom_notifier.register(states.SUCCESS, again)
        engine.run()
        self.assertEqual(3, engine.storage.get("b"))

    def test_a_task_that_was_begun_is_not_asked_for_again(self):
        self.start("unix:w.socket")
        with self.assertRaisesRegex(exceptions.ExecutionFailure, "a was lost at the worker unix:w.socket"):
            self.load(line("f", Die("a")), store={"path": os.path.abspath("begun")}, workers=["unix:w.socket"]).run()
        self.assertEqual("begun\n", pathlib.Path("begun").read_text())


if __name__ == "__main__":
    unittest.main()
