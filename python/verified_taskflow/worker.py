"""A worker: it performs tasks for engines in other processes, which name it in `workers`.

    python3 -m verified_taskflow.worker MODULE [MODULE ..] --address unix:PATH|tcp:127.0.0.1:PORT

A task is asked for as `module:Class`; only the task classes of the named modules are performed, each made anew with its name alone, as
TaskFlow's own workers make them. Each link is served in a thread of its own. Whoever may connect may ask: a socket in the file system has the mode
0600, and a port is open to each user of the machine."""

import argparse
import importlib
import json
import signal
import sys
import threading

from taskflow import task as tasks
from taskflow.types import failure

from . import links
from .values import Texts


class Worker:
    """Performs the tasks of some modules (list of names). Raises ImportError where one isn't there."""

    def __init__(self, modules, pickled=False):
        self._modules = {name: importlib.import_module(name) for name in modules}
        self._texts = Texts(True, pickled, links.TEXT_LIMIT)

    def serve(self, address):
        """Listens at the address, and serves each link that is made there, until an exception (of a signal) ends it. Then the socket of a
        path is removed."""
        with links.listen(address) as door:
            try:
                print("listening at " + address, flush=True)
                while True:
                    link, _ = door.accept()
                    threading.Thread(target=self._session, args=(link,), daemon=True).start()
            finally:
                links.leave(address)

    def _session(self, link):
        with link:
            try:
                while (order := links.hear(link)) is not None:
                    links.say(link, {"id": order["id"], "state": "RUNNING"})
                    links.say(link, dict(self._perform(order), id=order["id"]))
            except (OSError, EOFError, ValueError, KeyError, TypeError):
                pass

    def _perform(self, order):
        where, what, name = order["words"]
        kind = self._class(where)
        if kind is None or what not in ("execute", "revert"):
            return {"failure": ["spawn"], "state": "FAILURE"}
        try:
            return {"result": self._text(kind(name=name), what, order["args"]), "state": "SUCCESS"}
        except Exception:
            return {"result": "failure " + json.dumps(failure.Failure().to_dict(include_args=False)), "state": "SUCCESS"}

    def _class(self, where):
        module, _, name = where.partition(":")
        found = getattr(self._modules.get(module), name, None)
        return found if isinstance(found, type) and issubclass(found, tasks.Task) else None

    def _text(self, task, what, pairs):
        kwargs = {name: self._value(name, text) for name, text in pairs}
        try:
            getattr(task, "pre_" + what)()
            result = getattr(task, what)(**kwargs)
        finally:
            getattr(task, "post_" + what)()
        return self._texts.text_of(result, None, "the result of %s" % task.name)

    def _value(self, name, text):
        if name == "flow_failures":
            return {name: failure.Failure.from_dict(one) for name, one in json.loads(text).items()}
        if text.startswith("failure "):
            return failure.Failure.from_dict(json.loads(text[8:]))
        return self._texts.value_of(text)[0]


def main():
    parser = argparse.ArgumentParser(prog="python3 -m verified_taskflow.worker")
    parser.add_argument("modules", nargs="+", metavar="MODULE", help="a module whose task classes may be asked for")
    parser.add_argument("--address", required=True, help="unix:PATH or tcp:127.0.0.1:PORT")
    parser.add_argument("--pickle", action="store_true", help="results that are no JSON are pickled")
    words = parser.parse_args()
    if not links.is_address(words.address):
        parser.error("no address: " + words.address)
    signal.signal(signal.SIGTERM, lambda number, frame: sys.exit(0))
    Worker(words.modules, words.pickle).serve(words.address)


if __name__ == "__main__":
    main()
