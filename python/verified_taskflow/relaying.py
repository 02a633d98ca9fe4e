"""Tasks that workers in other processes perform: this process asks them for what the program asks of it."""

import contextlib
import inspect
import json
import queue
import socket
import sys

from taskflow import exceptions
from taskflow.types import failure

from . import links
from .names import is_name
from .refusals import Unsupported
from .values import NotKept, Texts


def refuse_far(plan):
    """Raises Unsupported where a task can't be named to another process: its class by a module, and its arguments by names; and where its
    class isn't made with a name alone."""
    for atom in plan.atoms:
        if not atom.is_retry:
            kind = type(atom.thing)
            if not _is_found(kind):
                raise Unsupported(atom.name, "its class %s isn't one that a worker finds as module:Class" % kind.__qualname__)
            if not _is_made_by_name(kind):
                raise Unsupported(atom.name, "its class %s isn't made with a name alone, as a worker makes it" % kind.__qualname__)
            for name in atom.thing.rebind:
                if not is_name(name):
                    raise Unsupported(atom.name, "its argument %s can't be named to a worker" % name)


def _is_found(kind):
    """Whether another process finds a class by its module's name; `__main__` is another module there."""
    return kind.__module__ != "__main__" and getattr(sys.modules.get(kind.__module__), kind.__qualname__, None) is kind


def _is_made_by_name(kind):
    try:
        inspect.signature(kind).bind(name="")
    except (TypeError, ValueError):
        return False
    return True


class Hand:
    """A link to the worker at an address (str), which performs one task at a time. Raises OSError where nobody is there."""

    def __init__(self, address):
        self.address = address
        self._number = 0
        self._closed = False
        self._link = links.dial(address)

    def close(self):
        """Ends the link, for good. Who waits for a reply is told."""
        self._closed = True
        self._drop()

    def _drop(self):
        link, self._link = self._link, None
        if link is not None:
            with contextlib.suppress(OSError):
                link.shutdown(socket.SHUT_RDWR)
            link.close()

    def perform(self, words, pairs):
        """The worker's reply (a dict) to an order of these words with these arguments (pairs of texts).

        Where the link ended before the worker said that the task runs nothing was performed, and it is dialled again: a worker may have
        been started anew. Raises OSError, EOFError or ValueError where the worker is lost, TooLong where the order is too long."""
        self._number += 1
        order = {"action": "execute", "args": pairs, "id": self._number, "kind": "command", "words": words}
        try:
            if not self._gives(order):
                self._dial()
                if not self._gives(order):
                    raise EOFError("it didn't say that the task runs")
            return self._reply()
        except (OSError, EOFError, ValueError):
            self._drop()
            raise

    def _dial(self):
        self._drop()
        if self._closed:
            raise EOFError("the run was broken off")
        self._link = links.dial(self.address)

    def _gives(self, order):
        """Whether the worker takes an order; if not, its link has ended."""
        if self._link is None:
            return False
        try:
            links.say(self._link, order)
            said = links.hear(self._link)
        except (OSError, EOFError):
            return False
        if said is not None and said != {"id": self._number, "state": "RUNNING"}:
            raise ValueError("it didn't say that the task runs")
        return said is not None

    def _reply(self):
        reply = links.hear(self._link)
        if type(reply) is not dict or reply.get("id") != self._number:
            raise ValueError("it gave no outcome")
        if reply.get("state") == "SUCCESS" and type(reply.get("result")) is not str:
            raise ValueError("it gave no result")
        return reply


class Relays:
    """Hands at workers. `pickled` tells whether values that are no JSON go to and fro as pickles."""

    def __init__(self, addresses, pickled):
        self._texts = Texts(True, pickled, links.TEXT_LIMIT)
        self._free = queue.SimpleQueue()
        self._all = []
        try:
            for address in addresses:
                self._all.append(Hand(address))
        except OSError as fault:
            self.close()
            raise exceptions.ExecutionFailure("there is no worker at %s: %s" % (address, fault)) from fault
        for hand in self._all:
            self._free.put(hand)

    def close(self):
        """Ends the links."""
        for hand in self._all:
            hand.close()

    def ask(self, task, what, kwargs):
        """What `execute` or `revert` (`what`) of a task gives for these arguments at a worker, or its failure."""
        hand = self._free.get()
        try:
            kind = type(task)
            words = ["%s:%s" % (kind.__module__, kind.__qualname__), what, task.name]
            return self._outcome(task, hand.perform(words, self._pairs(task, kwargs)))
        except (NotKept, links.TooLong):
            return failure.Failure()
        except (OSError, EOFError, ValueError) as fault:
            return _failure("%s was lost at the worker %s: %s" % (task.name, hand.address, fault))
        finally:
            self._free.put(hand)

    def _pairs(self, task, kwargs):
        """The arguments as an order has them, pairs of texts. Raises NotKept where one can't be sent."""
        given = dict(kwargs)
        failures = given.pop("flow_failures", None)
        pairs = [[name, self._texts.text_of(value, None, "the argument %s of %s" % (name, task.name))]
                 for name, value in given.items() if not isinstance(value, failure.Failure)]
        if failures is not None:
            pairs.append(["flow_failures", json.dumps({name: one.to_dict(include_args=False) for name, one in failures.items()})])
        if isinstance(given.get("result"), failure.Failure):
            pairs.append(["result", _text_of(given["result"])])
        return pairs

    def _outcome(self, task, reply):
        if reply.get("state") != "SUCCESS":
            return _failure("%s failed at its worker: %s" % (task.name, _reason(task, reply.get("failure", ()))))
        try:
            return self._value(reply["result"])
        except Exception:
            # What a worker sends may be anything, and so may be what an unpickled value raises.
            return failure.Failure()

    def _value(self, text):
        if text.startswith("failure "):
            return failure.Failure.from_dict(json.loads(text[8:]))
        return self._texts.value_of(text)[0]


def _reason(task, words):
    """Why a worker performed nothing: `words` are those of its reply."""
    if list(words) == ["spawn"]:
        kind = type(task)
        return "it was started without the module %s, or has no task class %s there" % (kind.__module__, kind.__qualname__)
    return " ".join(map(str, words))


def _text_of(fault):
    return "failure " + json.dumps(fault.to_dict(include_args=False))


def _failure(text):
    return failure.Failure.from_exception(exceptions.ExecutionFailure(text))
