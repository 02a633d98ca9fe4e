"""The engine's own tests. They need the program, in TASKFLOW_PROGRAM, and the package, on the path."""

import collections
import concurrent.futures
import contextlib
import gc
import os
import pathlib
import subprocess
import sys
import threading
import time
import unittest

import taskflow.engines
from taskflow import exceptions
from taskflow import retry
from taskflow import states
from taskflow import task
from taskflow.patterns import graph_flow, unordered_flow
from verified_taskflow import Broken, Unsupported, test
from verified_taskflow import names, values

sys.path.insert(0, os.path.dirname(os.path.abspath(__file__)))
from cases import HERE, PROGRAM, SITE, Case, line  # noqa: E402
from tasks_of_tests import Fail, Give, Note  # noqa: E402


def make_flow():
    return line("made", Give("a", 1))


class Loading(Case):
    def test_a_path_is_a_book_without_an_import_of_the_package(self):
        text = ("import site; site.addsitedir(%r)\n"
                "from taskflow.patterns import linear_flow\n"
                "from taskflow import task\n"
                "class A(task.Task):\n"
                "    def execute(self, n):\n"
                "        return n + 1\n"
                "flow = linear_flow.Flow('create').add(A('a', provides='x'))\n"
                "import taskflow.engines\n"
                "engine = taskflow.engines.load(flow, engine='verified', store={'n': 3}, book='create-volume.book', hands=4)\n"
                "engine.run()\n"
                "print(engine.storage.fetch_all())\n" % SITE)
        environment = {name: value for name, value in os.environ.items() if name != "PYTHONPATH"}
        done = subprocess.run([sys.executable, "-c", text], stdout=subprocess.PIPE, env=environment)
        self.assertEqual("{'n': 3, 'x': 4}\n", done.stdout.decode())
        self.assertIn("state create SUCCESS", self.shown("create-volume.book"))

    def test_a_factory_may_be_loaded_with_a_path(self):
        engine = taskflow.engines.load_from_factory(make_flow, engine="verified", book="x.book", hands=2)
        engine.run()
        self.assertEqual(["0 made SUCCESS"], self.shown("x.book", "details"))

    def test_other_engines_still_refuse_a_path(self):
        with self.assertRaises(AttributeError):
            taskflow.engines.load(line("f", Give("a")), engine="serial", book="x.book")

    def test_options_may_stand_in_the_name_of_the_engine(self):
        engine = taskflow.engines.load(line("f", Give("a")), engine="verified:?hands=3&book=x.book")
        engine.run()
        self.assertIn("state f SUCCESS", self.shown("x.book"))

    def test_bad_options_are_refused(self):
        processes = concurrent.futures.ProcessPoolExecutor(1)
        self.addCleanup(processes.shutdown)
        for options in ({"hands": 0}, {"hands": 65}, {"executor": "processes"}, {"executor": processes}, {"never_resolve": True},
                        {"workers": ["there"]}, {"book": ""}):
            with self.subTest(options), self.assertRaises(ValueError):
                self.load(line("f", Give("a")), **options)

    def test_a_missing_program_is_told(self):
        with self.assertRaises(Broken):
            self.load(line("f", Give("a")), program="/nowhere/taskflow").run()


class Forms(Case):
    """What has no form is refused when the engine is made or compiled, with the name and the reason."""

    def refused(self, flow, name, reason, **kwargs):
        with self.assertRaises(Unsupported) as caught:
            self.load(flow, **kwargs).compile()
        self.assertEqual(name, caught.exception.name)
        self.assertIn(reason, caught.exception.reason)

    def test_retry_controllers_that_decide_by_themselves(self):
        class Own(retry.Times):
            def on_failure(self, history, *args, **kwargs):
                return retry.RETRY
        self.refused(line("f", Give("a"), retry=Own(3, "own")), "own", "on_failure of its own")

        class Other(retry.Retry):
            def on_failure(self, history, *args, **kwargs):
                return retry.REVERT

            def execute(self, history, *args, **kwargs):
                pass
        self.refused(line("f", Give("a"), retry=Other("other")), "other", "Other isn't one of")

    def test_values_to_try_that_a_task_gives(self):
        inner = line("inner", Give("b"), retry=retry.ParameterizedForEach("each", provides="v"))
        self.refused(line("f", Give("a", [1], provides="values"), inner), "each", "must be in the store")

    def test_what_has_no_form_whatever_its_values_are_is_refused_when_the_engine_is_made(self):
        with self.assertRaises(Unsupported) as caught:
            self.load(line("f", *[Give("t%d" % at) for at in range(1001)]))
        self.assertEqual("f", caught.exception.name)

    def test_too_many_attempts(self):
        self.refused(line("f", Give("a"), retry=retry.Times(1001, "much")), "much", "1001 attempts")

    def test_too_many_tasks(self):
        self.refused(line("f", *[Give("t%d" % at) for at in range(1001)]), "f", "1001 tasks")

    def test_flows_nested_too_deep(self):
        flow = line("f17", Give("a"))
        for depth in range(16, 0, -1):
            flow = line("f%d" % depth, flow)
        self.refused(flow, "f17", "nested more than 16 deep")

    def test_priorities_that_are_no_integers(self):
        odd = Give("odd")
        odd.priority = 0.5
        self.refused(line("f", odd), "odd", "priority")

    def test_a_decider_before_a_flow_with_a_retry_controller(self):
        one, other = Give("a"), line("inner", Give("b"), retry=retry.Times(2, "again"))
        flow = graph_flow.Flow("g").add(one, other)
        flow.link(one, other, decider=lambda history: True)
        self.refused(flow, "inner", "retry controller again")

    def test_symbols_that_are_provided_in_other_company(self):
        flow = line("f", Give("a", (1, 2), provides=("x", "y")), Give("b", 3, provides="x"),
                    Note("c", requires=["x", "y"]))
        self.refused(flow, "b", "together with other symbols")

    def test_a_store_that_is_no_json_where_a_book_is_kept(self):
        self.refused(line("f", Note("a", requires=["thing"])), "f", "thing in the store is of the type builtins.object",
                     store={"thing": object()}, book="x.book")

    def test_what_the_program_refuses(self):
        flow = line("f", Give("a"), retry=retry.ForEach(list(range(1100)), "many"))
        self.refused(flow, "f", "bad value retry.values")
        with self.assertRaises(Unsupported):
            self.load(flow).run()

    def test_names_that_a_flow_file_cannot_have(self):
        name = "cinder.volume.flows.api.create_volume.ExtractVolumeRequestTask;volume:create"
        engine = self.load(line("Größe", Give(name, 5, provides="die Größe"), Note("b", requires=["die Größe"])), book="x.book")
        engine.run()
        self.assertEqual({"die Größe": 5}, engine.storage.get("b"))
        self.assertEqual(5, engine.storage.get(name))

    def test_flows_and_tasks_of_one_name(self):
        engine = self.load(line("same", Give("same", 1), line("same", Give("other", 2))))
        engine.run()
        self.assertEqual([1, 2], [engine.storage.get("same"), engine.storage.get("other")])


class Values(Case):
    def test_texts_go_both_ways(self):
        for value in (None, True, 5, -1.5, "é\x7f\n\"\\", [1, [2]], (1, (2, [3])), {"a": {"b": ()}}, {1: 2, (3,): {4}},
                      frozenset((1,)), b"\x00\xff", {"!": 1}, "\ud800", 10 ** 400):
            text = values.Texts(True, False).text_of(value)
            self.assertEqual((value, None), values.Texts(True, False).value_of(text))
            self.assertEqual(type(value), type(values.Texts(True, False).value_of(text)[0]))

    def test_names(self):
        self.assertEqual("a.b-c_1", names.name_for("a.b-c_1"))
        for text in ("", "é", "a b", "x" * 65, "1a", "-"):
            self.assertTrue(names.is_name(names.name_for(text)), text)
            self.assertEqual(names.name_for(text), names.name_for(text))

    def test_a_result_that_is_no_json_fails_its_task_where_a_book_is_kept(self):
        engine = self.load(line("f", Give("odd", {"k": object()}), Give("b")), book="x.book")
        with self.assertRaises(TypeError) as caught:
            engine.run()
        self.assertIn("the result of odd['k'] is of the type builtins.object", str(caught.exception))
        self.assertEqual(states.REVERTED, engine.storage.get_flow_state())

    def test_it_is_pickled_where_that_is_asked_for(self):
        kept = collections.OrderedDict(a=1)
        flow = line("f", Give("odd", kept, provides="x"), Note("b", requires=["x"]))
        self.load(flow, book="x.book", pickle=True).run()
        again = self.load(flow, book="x.book", pickle=True)
        again.run()
        self.assertEqual({"x": kept}, again.storage.get("b"))
        self.assertIs(collections.OrderedDict, type(again.storage.fetch("x")))

    def test_without_a_book_it_stays_in_this_process(self):
        thing, taker = object(), Note("b", requires=["x", "y"])
        self.load(line("f", Give("odd", thing, provides="x"), taker), store={"y": "z" * 100_000}).run()
        self.assertIs(thing, taker.calls[0][1]["x"])
        self.assertEqual(100_000, len(taker.calls[0][1]["y"]))

    def test_a_long_result_fails_its_task_where_a_book_is_kept(self):
        with self.assertRaises(TypeError) as caught:
            self.load(line("f", Give("long", "é" * 33_000)), book="x.book").run()
        self.assertIn("above 65536", str(caught.exception))

    def test_tuples_tables_and_single_values_give_symbols(self):
        taker = Note("t", rebind={"one": "a", "two": "b", "three": "k", "four": "w"}, inject={"five": 5}, requires=["five"])
        flow = line("f", Give("g", (1, 2), provides=("a", "b")), Give("h", {"k": 3, "l": 9}, provides={"k", "l"}),
                    Give("i", [4], provides="w"), taker)
        self.load(flow, book="x.book").run()
        self.assertEqual({"one": 1, "two": 2, "three": 3, "four": [4], "five": 5}, taker.calls[0][1])

    def test_a_result_without_a_symbols_place_fails_who_takes_it(self):
        with self.assertRaises(LookupError):
            self.load(line("f", Give("g", (1,), provides=("a", "b")), Note("t", requires=["b"])), book="x.book").run()


class Books(Case):
    def test_several_flows_share_a_book(self):
        for name in ("one", "two"):
            self.load(line(name, Give("a", name, provides="x")), book="x.book").run()
        self.assertEqual(["0 one SUCCESS", "1 two SUCCESS"], self.shown("x.book", "details"))
        self.assertEqual({"x": "one"}, taskflow.engines.run(line("one", Give("a", "new", provides="x")), engine="verified",
                                                            book="x.book"))

    def test_another_flow_of_the_name_is_refused(self):
        self.load(line("f", Give("a")), book="x.book").run()
        with self.assertRaises(exceptions.InvalidState):
            self.load(line("f", Give("b")), book="x.book").run()

    def test_what_is_no_book_is_refused_and_left_alone(self):
        pathlib.Path("x.book").write_text("hello")
        with self.assertRaises(exceptions.StorageFailure):
            self.load(line("f", Give("a")), book="x.book").run()
        self.assertEqual("hello", pathlib.Path("x.book").read_text())

    def test_a_reverted_flow_runs_anew_and_a_finished_one_is_not_reset(self):
        first = Note("a")
        engine = self.load(line("f", first, Fail("b")), book="x.book")
        for _ in range(2):
            with self.assertRaises(KeyError):
                engine.run()
        self.assertEqual(["execute", "revert"] * 2, [call[0] for call in first.calls])
        engine = self.load(line("g", Give("a")), book="x.book")
        engine.run()
        with self.assertRaises(exceptions.InvalidState):
            engine.reset()
        self.assertEqual(states.SUCCESS, engine.storage.get_flow_state())

    def test_a_failure_of_another_process_is_known(self):
        text = ("import os, sys; sys.path.insert(0, %r)\n"
                "import verified_taskflow, taskflow.engines\n"
                "from taskflow.patterns import linear_flow\n"
                "from tasks_of_tests import Fail, Note\n"
                "class Die(Note):\n"
                "    def revert(self, **kwargs):\n"
                "        os.kill(os.getpid(), 9)\n"
                "flow = linear_flow.Flow('f').add(Die('a', inject={'n': 7}, requires=['n']), Fail('b'))\n"
                "taskflow.engines.load(flow, engine='verified', book='x.book').run()\n" % HERE)
        self.assertEqual(-9, subprocess.run([sys.executable, "-c", text]).returncode)
        undone = Note("a", inject={"n": 7}, requires=["n"])
        with self.assertRaises(exceptions.WrappedFailure) as caught:
            self.load(line("f", undone, Fail("b")), book="x.book").run()
        self.assertIn("KeyError: 'the disk is full'", str(caught.exception))
        self.assertEqual([("revert", {"n": 7}, {"n": 7}, {"b": "Failure: KeyError: 'the disk is full'"})], undone.calls)

    def test_a_process_goes_on_without_the_store_and_with_other_orders_of_sets(self):
        text = ("import sys; sys.path.insert(0, %r)\n"
                "import verified_taskflow, taskflow.engines\n"
                "from taskflow.patterns import graph_flow\n"
                "from tasks_of_tests import Give, Sum\n"
                "letters = 'abcdefgh'\n"
                "flow = graph_flow.Flow('g').add(*[Give(one, at, provides='of-' + one) for at, one in enumerate(letters)])\n"
                "flow.add(Give('pair', (10, 20), provides=('x', 'y')))\n"
                "flow.add(*[Sum('sum-' + one, requires=['base', 'x', 'y', 'of-' + one, 'of-a'], provides='s-' + one) for one in letters])\n"
                "flow.add(Sum('all', requires=['s-' + one for one in letters], provides='total'))\n"
                "store = {'base': 100} if sys.argv[1] == 'first' else {}\n"
                "engine = taskflow.engines.load(flow, engine='verified', book='x.book', store=store)\n"
                "for at, state in enumerate(engine.run_iter()):\n"
                "    if sys.argv[1] == 'first' and at == 40:\n"
                "        engine.suspend()\n"
                "print(engine.storage.get_flow_state(), engine.storage.fetch_all().get('total'))\n" % HERE)
        said = [subprocess.run([sys.executable, "-c", text, word], env=dict(os.environ, PYTHONHASHSEED=seed), stdout=subprocess.PIPE)
                .stdout.decode() for word, seed in (("first", "1"), ("second", "2"))]
        self.assertEqual(["SUSPENDED None\n", "SUCCESS %d\n" % (8 * 130 + 28)], said)

    def test_the_book_and_its_failures_are_the_users_alone(self):
        before = os.umask(0)
        self.addCleanup(os.umask, before)
        with self.assertRaises(KeyError):
            self.load(line("f", Fail("a")), book="x.book").run()
        self.assertEqual([0o600] * 2, [os.stat(name).st_mode & 0o777 for name in ("x.book", "x.book.failures")])

    def test_failures_of_several_hands_keep_apart(self):
        class Odd(task.Task):
            def execute(self):
                raise ValueError(self.name)
        flow = unordered_flow.Flow("f").add(*[Odd("t%d" % at) for at in range(20)])
        engine = self.load(flow, book="x.book", hands=16)
        with self.assertRaises((ValueError, exceptions.WrappedFailure)):
            engine.run()
        for name, fault in engine.storage.get_failures().items():
            self.assertEqual(name, fault.exception_str)
        again = self.load(flow, book="x.book")
        again.compile()
        again.prepare()
        for name, fault in again.storage.get_failures().items():
            self.assertEqual(name, fault.exception_str)

    def test_two_engines_on_one_book_do_not_harm_each_other(self):
        class Wait(task.Task):
            def execute(self):
                with case.assertRaises(exceptions.StorageFailure):
                    case.load(line("g", Give("b")), book="x.book").run()
        case = self
        self.load(line("f", Wait("a")), book="x.book").run()
        self.assertEqual(["0 f SUCCESS"], self.shown("x.book", "details"))

    def test_a_book_that_another_program_has_is_waited_for(self):
        pathlib.Path("slow.toml").write_text('name = "slow"\nkind = "linear"\n'
                                             'items = [{ task = "s", kind = "command", run = ["sleep", "0.4"] }]\n')
        flow = line("f", Note("a"), Fail("b"))
        for _ in range(2):
            process = subprocess.Popen([PROGRAM, "run", "slow.toml", "x.book"], stdout=subprocess.PIPE)
            while b" s RUNNING" not in process.stdout.readline():
                pass
            with self.assertRaises(KeyError):
                self.load(flow, book="x.book").run()
            process.stdout.close()
            process.wait()
            pathlib.Path("slow.toml").write_text(pathlib.Path("slow.toml").read_text().replace('"slow"', '"slower"'))

    def test_an_interruption_ends_the_run_and_a_further_one_goes_on(self):
        class Interrupt(task.Task):
            def execute(self):
                raise KeyboardInterrupt
        for hands in (1, 3):
            with self.assertRaises(KeyboardInterrupt):
                self.load(line("f%d" % hands, Note("a"), Interrupt("b")), book="x.book", hands=hands).run()
            first = Note("a")
            self.load(line("f%d" % hands, first, Give("b")), book="x.book").run()
            self.assertEqual([], first.calls)


class Performing(Case):
    def test_hooks_and_the_socket(self):
        said = []

        class Hooked(task.Task):
            def execute(self):
                sockets = [os.path.join(at, name) for at, _, found in os.walk(engine._place.home.folder) for name in found if name == "s"]
                said.append([oct(os.stat(path).st_mode & 0o777) for path in sockets + [engine._place.home.folder]])
                said.append(threading.current_thread() is threading.main_thread())

            def pre_execute(self):
                said.append("before")

            def post_execute(self):
                said.append("behind")

            def pre_revert(self):
                said.append("before the undoing")

            def post_revert(self):
                said.append("behind the undoing")
        engine = self.load(line("f", Hooked("a"), Fail("b")))
        with self.assertRaises(KeyError):
            engine.run()
        self.assertEqual(["before", ["0o600", "0o700"], True, "behind", "before the undoing", "behind the undoing"], said)
        folder = engine._place.home.folder
        del engine
        gc.collect()
        self.assertFalse(os.path.exists(folder))

    def test_hands_work_at_the_same_time_and_an_executor_performs(self):
        together = threading.Barrier(4, timeout=20)

        class Meet(task.Task):
            def execute(self):
                together.wait()
                return threading.current_thread().name
        with concurrent.futures.ThreadPoolExecutor(4, "mine") as executor:
            for options, front in (({}, "taskflow-hand"), ({"executor": executor}, "mine")):
                engine = self.load(unordered_flow.Flow("f").add(*[Meet("t%d" % at) for at in range(4)]), hands=4, **options)
                engine.run()
                for at in range(4):
                    self.assertTrue(engine.storage.get("t%d" % at).startswith(front))

    def test_what_is_injected_for_an_atom_alone_comes_first(self):
        def calls(engine, **options):
            one, other, third = Note("a", requires=["x"]), Note("b", requires=["x", "y"], inject={"y": 1}), Note("c", requires=["x"])
            loaded = taskflow.engines.load(line("f", one, other, third, Fail("d")), engine=engine, store={"x": 0}, **options)
            loaded.compile()
            loaded.prepare()
            loaded.storage.inject_atom_args("a", {"x": [7]})
            loaded.storage.inject_atom_args("b", {"x": 8, "y": 9}, transient=False)
            with self.assertRaises(KeyError):
                loaded.run()
            return [one.calls, other.calls, third.calls]
        for options in ({}, {"book": "x.book"}):
            self.assertEqual(calls("serial"), calls("verified", **options))

    def test_what_is_injected_for_an_atom_alone_is_given(self):
        for transient in (True, False):
            taker = Note("a", requires=["x"])
            engine = self.load(line("f", taker))
            engine.compile()
            engine.prepare()
            with self.assertRaises(exceptions.MissingDependencies):
                engine.validate()
            engine.storage.inject_atom_args("a", {"x": 7}, transient=transient)
            engine.run()
            self.assertEqual({"x": 7}, taker.calls[0][1])

    def test_priorities_and_default_arguments(self):
        order = []

        class Tell(task.Task):
            def execute(self, one=5):
                order.append((self.name, one))
        flow = unordered_flow.Flow("f").add(*[Tell("t%d" % at) for at in range(4)])
        for at, one in enumerate(flow):
            one.priority = at
        self.load(flow).run()
        self.load(flow, store={"one": 6}).run()
        self.assertEqual([("t%d" % at, one) for one in (5, 6) for at in (3, 2, 1, 0)], order)


class Breaking(Case):
    def test_a_program_that_is_killed_is_told_and_a_further_run_goes_on(self):
        for hands in (1, 3):
            for book in (None, "x%d.book" % hands):
                kills = []

                class Kill(task.Task):
                    def execute(self):
                        if not kills:
                            kills.append(1)
                            engine._session._process.kill()
                            engine._session._process.wait()
                        return 7
                first, last = Note("a"), Note("c", requires=["x"])
                engine = self.load(line("f", first, Kill("b", provides="x"), last), book=book, hands=hands)
                with self.assertRaises(Broken):
                    engine.run()
                self.assertEqual(states.FAILURE, engine.storage.get_flow_state())
                engine.run()
                self.assertEqual((states.SUCCESS, 1, [("execute", {"x": 7})]),
                                 (engine.storage.get_flow_state(), len(first.calls), last.calls))

    def test_an_exception_thrown_into_the_iteration_breaks_off_and_a_further_run_goes_on(self):
        first, last = Note("a"), Note("b")
        engine = self.load(line("f", first, last), book="x.book")
        steps = engine.run_iter()
        while next(steps) != states.ANALYZING:
            pass
        with self.assertRaises(OSError):
            steps.throw(OSError("out"))
            list(steps)
        engine.run()
        self.assertEqual((states.SUCCESS, 1), (engine.storage.get_flow_state(), len(last.calls)))
        self.assertLessEqual(len(first.calls), 2)


class Leaving(Case):
    def test_a_folder_goes_with_its_run_and_needs_no_collector(self):
        gc.disable()
        self.addCleanup(gc.enable)
        for hands, book, last in ((1, None, Give), (3, None, Give), (1, "x.book", Give), (1, None, Fail), (3, "y.book", Fail)):
            with self.subTest(hands=hands, book=book, last=last):
                before, folders = len(os.listdir("/proc/self/fd")), []
                engine = self.load(line("f", Give("a"), last("b")), hands=hands, book=book)
                engine.atom_notifier.register(states.SUCCESS, lambda state, details: folders.append(engine._place.home.folder))
                for _ in range(2):
                    with contextlib.suppress(KeyError):
                        engine.run()
                    self.assertEqual([False] * len(folders), list(map(os.path.exists, folders)))
                    self.assertEqual(before, len(os.listdir("/proc/self/fd")))
                self.assertEqual(2, len(folders))

    def test_a_folder_goes_with_an_engine_that_is_suspended(self):
        gc.disable()
        self.addCleanup(gc.enable)
        engine = self.load(line("f", Give("a"), Give("b"), Give("c")), hands=3)
        for _ in range(2):
            steps = engine.run_iter()
            for state in steps:
                if state == states.WAITING:
                    break
            steps.close()
        folder = engine._place.home.folder
        self.assertTrue(os.path.exists(folder + "/book"))
        del steps, engine
        self.assertFalse(os.path.exists(folder))

    def test_what_a_killed_process_left_is_removed_and_what_a_living_one_has_is_not(self):
        text = ("import sys, os, verified_taskflow, taskflow.engines\n"
                "from taskflow.patterns import linear_flow\n"
                "engine = taskflow.engines.load(linear_flow.Flow('f'), engine='verified')\n"
                "print(engine._place.home.folder, flush=True)\n"
                "sys.stdin.read()\n")
        process = subprocess.Popen([sys.executable, "-c", text], stdin=subprocess.PIPE, stdout=subprocess.PIPE)
        self.addCleanup(process.stdout.close)
        self.addCleanup(process.stdin.close)
        folder = process.stdout.readline().decode().strip()
        self.load(line("f", Give("a"))).run()
        self.assertTrue(os.path.isdir(folder))
        process.kill()
        process.wait()
        self.load(line("f", Give("a"))).run()
        self.assertFalse(os.path.exists(folder))


class Stopping(Case):
    def test_suspend_from_another_thread_with_several_hands(self):
        began = threading.Event()

        class Slow(task.Task):
            def execute(self):
                began.set()
                time.sleep(0.05)
        engine = self.load(unordered_flow.Flow("f").add(*[Slow("t%d" % at) for at in range(30)]), book="x.book", hands=3)
        thread = threading.Thread(target=lambda: (began.wait(), engine.suspend()))
        thread.start()
        engine.run()
        thread.join()
        self.assertEqual(states.SUSPENDED, engine.storage.get_flow_state())
        done = [engine.storage.get_atom_state("t%d" % at) for at in range(30)].count(states.SUCCESS)
        self.assertLess(done, 30)
        self.assertFalse(os.path.exists("x.book.stop"))
        engine.run()
        self.assertEqual(states.SUCCESS, engine.storage.get_flow_state())

    def test_somebody_elses_stop_file_stops_and_a_stale_one_of_ours_does_not(self):
        engine = self.load(line("f", Give("a")), book="x.book")
        pathlib.Path("x.book.stop").write_text("maintenance")
        engine.run()
        self.assertEqual(states.SUSPENDED, engine.storage.get_flow_state())
        self.assertTrue(os.path.exists("x.book.stop"))
        pathlib.Path("x.book.stop").write_text("suspended by verified_taskflow\n")
        engine.run()
        self.assertEqual(states.SUCCESS, engine.storage.get_flow_state())

    def test_a_closed_iteration_suspends(self):
        second = Note("b")
        engine = self.load(line("f", Give("a"), second), book="x.book")
        steps = engine.run_iter()
        for state in steps:
            if state == states.WAITING:
                break
        steps.close()
        self.assertEqual((states.SUSPENDED, []), (engine.storage.get_flow_state(), second.calls))
        engine.run()
        self.assertEqual(1, len(second.calls))


class Deciding(Case):
    def outcome(self, decider, result, engine="verified"):
        one, other = Give("a", result), Give("b")
        flow = graph_flow.Flow("g").add(one, other)
        flow.link(one, other, decider=decider)
        loaded = taskflow.engines.load(flow, engine=engine)
        loaded.run()
        return loaded.storage.get_atom_state("b")

    def test_tests_of_a_value(self):
        for decider, result, goes in ((test(equals=3), 3, True), (test(equals=3), 3.0, False), (test(equals="x"), "x", True),
                                      (test(equals=3, not_=True), 3, False), (test(below=3), 2, True), (test(below=3), 3, False),
                                      (test(above=1, below=3), 2, True), (test(above=1), "x", False),
                                      (test(equals=[1, {"a": None}]), [1, {"a": None}], True)):
            for engine in ("verified", "serial"):
                with self.subTest(decider=decider, result=result, engine=engine):
                    wanted = states.SUCCESS if goes else states.IGNORE
                    self.assertEqual(wanted, self.outcome(decider, result, engine))

    def test_a_test_has_a_word(self):
        for words in ({}, {"under": 3}):
            with self.assertRaises(TypeError):
                test(**words)

    def test_a_decider_that_raises_breaks_the_run_off(self):
        with self.assertRaises(ZeroDivisionError):
            self.outcome(lambda history: 1 // 0, 3)


if __name__ == "__main__":
    unittest.main()
