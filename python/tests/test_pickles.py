"""Values that are pickled: only where that was asked for, whoever sends them."""

import base64
import os
import pathlib
import pickle
import subprocess
import sys
import threading
import unittest

from taskflow import states

sys.path.insert(0, os.path.dirname(os.path.abspath(__file__)))
from cases import HERE, SITE, Case, line  # noqa: E402
from tasks_of_tests import Give, Note, Sum  # noqa: E402

from verified_taskflow import Unsupported, links, values  # noqa: E402


class Payload:
    """Makes a file where it is unpickled."""

    def __reduce__(self):
        return pathlib.Path("unpickled").touch, ()


def pickled(value):
    return "pickle [%s]" % values.dump(base64.b64encode(pickle.dumps(value)).decode())


class Refusing(Case):
    def test_texts_unpickle_where_that_was_asked_for_alone(self):
        for kept in (True, False):
            with self.assertRaises(ValueError) as caught:
                values.Texts(kept, False).value_of(pickled(Payload()))
            self.assertIn("pickle=True", str(caught.exception))
        self.assertFalse(os.path.exists("unpickled"))
        self.assertEqual(({1}, None), values.Texts(True, True).value_of(pickled({1})))

    def test_a_worker_unpickles_no_argument(self):
        words = [sys.executable, "-m", "verified_taskflow.worker", "tasks_of_tests", "--address", "unix:w.socket"]
        worker = subprocess.Popen(words, stdout=subprocess.PIPE, env=dict(os.environ, PYTHONPATH="%s:%s" % (SITE, HERE)))
        self.addCleanup(worker.stdout.close)
        self.addCleanup(worker.wait)
        self.addCleanup(worker.kill)
        worker.stdout.readline()
        with links.dial("unix:w.socket") as link:
            links.say(link, {"action": "execute", "args": [["one", pickled(Payload())]], "id": 1, "kind": "command",
                             "words": ["tasks_of_tests:Add", "execute", "a"]})
            self.assertEqual({"id": 1, "state": "RUNNING"}, links.hear(link))
            self.assertIn("pickle=True", links.hear(link)["result"])
        self.assertFalse(os.path.exists("unpickled"))

    def test_a_pickled_book_is_read_with_the_option_alone(self):
        flow = line("f", Give("odd", frozenset, provides="x"), Note("b", requires=["x"]))
        self.load(flow, book="x.book", pickle=True).run()
        with self.assertRaises(ValueError) as caught:
            self.load(flow, book="x.book").run()
        self.assertIn("pickle=True", str(caught.exception))
        again = self.load(flow, book="x.book", pickle=True)
        again.run()
        self.assertIs(frozenset, again.storage.fetch("x"))


class Replies(Case):
    def test_a_pickled_reply_of_a_worker_fails_its_task(self):
        door = links.listen("unix:w.socket")
        self.addCleanup(door.close)

        def reply():
            link, _ = door.accept()
            with link:
                order = links.hear(link)
                links.say(link, {"id": order["id"], "state": "RUNNING"})
                links.say(link, {"id": order["id"], "state": "SUCCESS", "result": pickled(Payload())})
                links.hear(link)
        threading.Thread(target=reply, daemon=True).start()
        with self.assertRaises(ValueError) as caught:
            self.load(line("f", Sum("a", requires=["one"])), store={"one": 1}, workers=["unix:w.socket"]).run()
        self.assertIn("pickle=True", str(caught.exception))
        self.assertFalse(os.path.exists("unpickled"))


class Long:
    """Its pickle has 100,000 bytes."""

    def __init__(self):
        self.text = "y" * 100_000


class Failing(Case):
    """A value that no text can be made of fails its task, which is undone as any that failed."""

    def reverted(self, value, **options):
        undone = Note("a")
        engine = self.load(line("f", undone, Give("odd", value)), book="x.book", **options)
        with self.assertRaises(TypeError) as caught:
            engine.run()
        self.assertEqual(states.REVERTED, engine.storage.get_flow_state())
        self.assertEqual(["execute", "revert"], [call[0] for call in undone.calls])
        os.unlink("x.book")
        return str(caught.exception)

    def test_what_pickle_refuses(self):
        for value, reason in ((lambda: 1, "Can't pickle"), (threading.Lock(), "cannot pickle '_thread.lock' object")):
            text = self.reverted({"k": value}, pickle=True)
            self.assertIn("the result of odd can't be pickled", text)
            self.assertIn(reason, text)

    def test_a_long_pickle_is_told_as_one(self):
        text = self.reverted(Long(), pickle=True)
        self.assertRegex(text, "the result of odd has 1[0-9]{5} bytes as a pickle, above 65536")

    def test_a_list_that_has_itself_is_told_with_the_name(self):
        endless = []
        endless.append(endless)
        self.assertIn("the result of odd is no JSON: maximum recursion depth", self.reverted(endless))

    def test_a_store_is_refused_with_the_name(self):
        engine = self.load(line("f", Note("a", requires=["lock"])), store={"lock": threading.Lock()}, book="x.book", pickle=True)
        with self.assertRaises(Unsupported) as caught:
            engine.compile()
        self.assertIn("the value of lock in the store can't be pickled", caught.exception.reason)


if __name__ == "__main__":
    unittest.main()
