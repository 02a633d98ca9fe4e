"""What goes wrong around a run: hooks and disks that fail, signals, programs that end oddly. `run` returns or raises; it never hangs."""

import contextlib
import os
import pathlib
import signal
import subprocess
import sys
import threading
import time
import unittest
import unittest.mock

from taskflow import states
from taskflow import task
from taskflow.patterns import unordered_flow

sys.path.insert(0, os.path.dirname(os.path.abspath(__file__)))
from cases import HERE, Case, line  # noqa: E402
from tasks_of_tests import Fail, FailTwice, Give, Note  # noqa: E402

from verified_taskflow import Broken, program, recorder  # noqa: E402

PATIENCE = 20
"""How long, in seconds, a run may take before it counts as one that hangs."""


class Limited(Case):
    def outcome(self, engine, times=1):
        """What `run` raised in a thread of its own (an exception, or None) the last of so many times. Fails where it hangs."""
        raised = [None]

        def run():
            for _ in range(times):
                try:
                    engine.run()
                    raised[0] = None
                except BaseException as fault:
                    raised[0] = fault
        thread = threading.Thread(target=run, daemon=True)
        thread.start()
        thread.join(PATIENCE)
        self.assertFalse(thread.is_alive(), "run() has not returned")
        return raised[0]


class Hanging(Limited):
    def test_a_hook_that_raises_an_os_error_ends_the_run(self):
        class Hooked(task.Task):
            def execute(self):
                return 1

            def post_execute(self):
                raise OSError("the hook's disk")
        for hands in (1, 3):
            with self.subTest(hands):
                fault = self.outcome(self.load(unordered_flow.Flow("f").add(Hooked("a")), hands=hands))
                self.assertEqual("the hook's disk", str(fault))

    def test_failures_that_cannot_be_kept_end_the_run(self):
        os.mkdir("x.book.failures")
        for hands in (1, 3):
            with self.subTest(hands):
                fault = self.outcome(self.load(line("f%d" % hands, Fail("a")), book="x.book", hands=hands))
                self.assertIsInstance(fault, OSError)


class Suspending(Limited):
    def test_a_suspension_before_the_first_line_suspends(self):
        def start(*words):
            started(*words)
            while not any(text.endswith("task a RUNNING") for text in self.shown(engine._place.book, "show")):
                time.sleep(0.01)
            engine.suspend()
        first, second = Note("a"), Note("b")
        engine, started = self.load(line("f", first, second)), program.start
        with unittest.mock.patch.object(program, "start", start):
            self.assertIsNone(self.outcome(engine))
        self.assertEqual((states.SUSPENDED, []), (engine.storage.get_flow_state(), second.calls))
        self.assertIsNone(self.outcome(engine))
        self.assertEqual((states.SUCCESS, 1, 1), (engine.storage.get_flow_state(), len(first.calls), len(second.calls)))


def write_program(text):
    """Writes a program of the shell in the current folder."""
    pathlib.Path("program").write_text("#!/bin/sh\n" + text)
    os.chmod("program", 0o700)


class Signals(Case):
    def test_a_signal_to_the_group_that_the_user_handles_ends_nothing(self):
        text = ("import os, signal, sys, time; sys.path.insert(0, %r)\n"
                "import verified_taskflow, taskflow.engines\n"
                "from taskflow import task\n"
                "from taskflow.patterns import linear_flow\n"
                "heard, begun = [], []\n"
                "class Kill(task.Task):\n"
                "    def execute(self):\n"
                "        begun.append(self.name)\n"
                "        os.killpg(0, getattr(signal, self.name))\n"
                "        time.sleep(0.05)\n"
                "names = ('SIGINT', 'SIGTERM', 'SIGHUP')\n"
                "for name in names:\n"
                "    signal.signal(getattr(signal, name), lambda number, frame: heard.append(signal.Signals(number).name))\n"
                "flow = linear_flow.Flow('f').add(*map(Kill, names))\n"
                "taskflow.engines.load(flow, engine='verified', book=sys.argv[1] or None, hands=int(sys.argv[2])).run()\n"
                "assert heard == begun == list(names), (heard, begun)\n" % HERE)
        for book in ("", "x.book"):
            for hands in ("1", "3"):
                with self.subTest(book=book, hands=hands):
                    done = subprocess.run([sys.executable, "-c", text, book and book + hands, hands], start_new_session=True,
                                          stderr=subprocess.PIPE, timeout=PATIENCE)
                    self.assertEqual((0, ""), (done.returncode, done.stderr.decode()))

    def test_a_signal_to_the_group_ends_no_question_to_the_program(self):
        write_program("kill -INT $$\nkill -TERM $$\necho ok it is\n")
        self.assertEqual((0, ["ok it is"], ""), program.ask([os.path.abspath("program")], "ok "))
        self.assertEqual(set(), signal.pthread_sigmask(signal.SIG_BLOCK, ()))


def reap(number, frame):
    """A handler that takes the status of every child, as some servers have."""
    with contextlib.suppress(ChildProcessError):
        while os.waitpid(-1, os.WNOHANG)[0]:
            pass


class Statuses(Case):
    """A status that somebody else took, or that means nothing, is never trusted alone."""

    def outcomes(self, book):
        """What the runs of four flows raised, and their states."""
        found = []
        for name, last in (("good", Give("b")), ("bad", Fail("b"))):
            engine = self.load(line(name, Give("a"), last), book=book)
            for _ in range(2):
                try:
                    engine.run()
                    found.append((name, None, engine.storage.get_flow_state()))
                except Exception as fault:
                    found.append((name, type(fault), engine.storage.get_flow_state()))
        engine = self.load(line("left", FailTwice("e")), book=book)
        for _ in range(2):
            with self.assertRaises(KeyError):
                engine.run()
        found.append(engine.storage.get_flow_state())
        engine = self.load(line("stopped", Give("c"), Note("d")), book=book)
        engine.atom_notifier.register(states.SUCCESS, lambda state, details: engine.suspend())
        engine.run()
        return found + [engine.storage.get_flow_state()]

    def test_children_that_others_reap_change_nothing(self):
        wanted = [("good", None, states.SUCCESS)] * 2 + [("bad", KeyError, states.REVERTED)] * 2 + [
            states.FAILURE, states.SUSPENDED]
        before = signal.getsignal(signal.SIGCHLD)
        self.addCleanup(signal.signal, signal.SIGCHLD, before)
        for at, handler in enumerate((signal.SIG_DFL, signal.SIG_IGN, reap)):
            for book in (None, "x%d.book" % at):
                with self.subTest(handler=handler, book=book):
                    signal.signal(signal.SIGCHLD, handler)
                    self.assertEqual(wanted, self.outcomes(book))

    def test_a_program_that_says_nothing_is_told(self):
        for text in ("exit 0", "exit 10", "test $1 = check && echo ok f; exit 0", "test $1 = check && echo ok f; exit 11"):
            write_program(text)
            with self.subTest(text), self.assertRaisesRegex(Broken, "without saying how"):
                self.load(line("f", Give("a")), program=os.path.abspath("program")).run()


def children():
    """The processes (a set of int) that this one started and that live."""
    found = set()
    for name in os.listdir("/proc"):
        if name.isdigit():
            with contextlib.suppress(OSError), open("/proc/%s/stat" % name) as file:
                state, parent = file.read().rpartition(")")[2].split()[:2]
                if int(parent) == os.getpid() and state != "Z":
                    found.add(int(name))
    return found


class Interruptions(Limited):
    """An interruption wherever it comes: the run is broken off, leaves no process and no thread, and a further run loses nothing."""

    def check(self, place, name, replacement, book, hands=1):
        """Runs a flow while something is replaced that interrupts, and then again."""
        begun = []

        class Step(task.Task):
            def execute(self):
                begun.append(self.name)
                return self.name
        before, threads = children(), threading.active_count()
        engine = self.load(line("f", *[Step(one, provides="of-" + one) for one in "abc"]), book=book, hands=hands)
        with unittest.mock.patch.object(place, name, replacement), self.assertRaises(KeyboardInterrupt):
            engine.run()
        self.assertEqual((before, threads), (children(), threading.active_count()))
        engine.run()
        self.assertEqual((states.SUCCESS, {"of-" + one: one for one in "abc"}),
                         (engine.storage.get_flow_state(), engine.storage.fetch_all()))
        self.assertEqual(["a", "b", "c"], sorted(set(begun)))
        return begun

    def test_as_a_line_is_taken(self):
        real = recorder.Recorder.take
        for number in range(1, 9):
            for first in (True, False):
                for book in (None, "x%d%s.book" % (number, first)):
                    def take(self, line, tells=True):
                        if first or line.number != number:
                            real(self, line, tells)
                        if line.number == number:
                            raise KeyboardInterrupt
                    with self.subTest(number=number, first=first, book=book):
                        begun = self.check(recorder.Recorder, "take", take, book)
                        self.assertLessEqual(len(begun), 4)

    def test_as_a_program_is_started(self):
        real = subprocess.Popen

        def popen(words, **options):
            process = real(words, **options)
            if words[1] in ("run", "resume"):
                os.kill(os.getpid(), signal.SIGINT)
            return process
        for book in (None, "x.book"):
            self.check(subprocess, "Popen", popen, book)

    def test_as_the_holder_is_started(self):
        real, calls = signal.pthread_sigmask, []

        def mask(how, signals):
            found = real(how, signals)
            if how == signal.SIG_BLOCK and len(signals) > 3:
                calls.append(how)
            if how == signal.SIG_SETMASK and calls:
                raise KeyboardInterrupt
            return found
        self.check(signal, "pthread_sigmask", mask, "x.book")
        self.assertEqual(1, len(calls))

    def test_as_threads_are_started(self):
        real, started = threading.Thread.start, []

        def start(self):
            if self.name.startswith("taskflow-hand"):
                started.append(self)
                if len(started) == 2:
                    raise KeyboardInterrupt
            real(self)
        self.check(threading.Thread, "start", start, "x.book", hands=3)


if __name__ == "__main__":
    unittest.main()
