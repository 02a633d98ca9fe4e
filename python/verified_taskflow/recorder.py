"""What the lines of a run say, put into the storage and handed on as TaskFlow's notifications."""

import json

from taskflow import exceptions
from taskflow import retry as retries
from taskflow import states
from taskflow import task as tasks
from taskflow.types import failure

from .plan import retry_kind
from .refusals import Broken

_NOTHING = object()
STARTS = frozenset((states.RUNNING, states.REVERTING))
ENDS = frozenset((states.SUCCESS, states.FAILURE, states.REVERTED, states.REVERT_FAILURE))
_REASONS = {"lost": "its worker was lost", "spawn": "the command couldn't be run", "too-long": "its result is too long",
            "not-text": "its result is no text", "bad-reply": "its worker sent what is no reply"}


class Line:
    """A line of a run: `number` of the entry (int), `kind` (`flow`, `task`, `retry`, `resolve`, `restart`), `name`, `state` (or the
    kind of resolution), and `rest`, the text of a value or a failure (None where there is none)."""

    __slots__ = ("number", "kind", "name", "state", "rest")

    def __init__(self, text):
        parts = text.split(" ", 5)
        if len(parts) < 4 or not parts[0].isdigit():
            raise Broken("the program said what is no line: %.100r" % text)
        self.number = int(parts[0])
        self.kind = parts[2]
        self.name = parts[3]
        self.state = parts[4] if len(parts) > 4 else None
        self.rest = parts[5] if len(parts) > 5 else None

    def is_start(self):
        """Whether an atom begins to be executed or undone."""
        return self.kind in ("task", "retry") and self.state in STARTS

    def is_end(self):
        """Whether an atom's execution or undoing ends."""
        return self.kind in ("task", "retry") and self.state in ENDS


def quoted(text):
    """A text of ours as a line has it: it has no bytes below 32 and not 127."""
    return '"%s"' % text.replace("\\", "\\\\").replace('"', '\\"')


class Recorder:
    """Takes the lines of one flow, in their order."""

    def __init__(self, engine, plan, storage, texts, failures):
        self._engine = engine
        self._plan = plan
        self._storage = storage
        self._texts = texts
        self._failures = failures
        self._failed = None
        self._skipped = []
        self.made = {}
        self.undone = {}

    def take(self, line, tells=True):
        """Takes a line: it is put into the storage, and listeners are told where `tells`."""
        kind = line.kind
        if self._skipped and line.state != states.IGNORE:
            self._tell_skipped()
        if kind == "task" or kind == "retry":
            atom = self._plan.by_label.get(line.name)
            if atom is not None:
                self._take_atom(atom, line, tells)
            elif line.name not in self._plan.hidden_by_label:
                raise self._stranger(line.name)
        elif kind == "flow":
            self._take_flow(line, tells)
        elif kind == "resolve":
            self._blame(line)

    def _stranger(self, name):
        return exceptions.InvalidState("the book has another flow of the name %s: it has %s" % (self._plan.root.name, name))

    def _take_flow(self, line, tells):
        if line.name != self._plan.root.label:
            raise self._stranger(line.name)
        if tells:
            self._engine._change_state(line.state)
        else:
            self._storage.set_flow_state(line.state)

    def _take_atom(self, atom, line, tells):
        state = line.state
        if state in (states.PENDING, states.REVERTED):
            self._texts.let_go(atom.name)
        if state in ENDS:
            self._take_end(atom, line, tells)
        elif state == states.RUNNING:
            self._enter(atom, state, states.EXECUTE, tells)
        elif state == states.REVERTING:
            self._enter(atom, state, states.REVERT, tells)
        elif state == states.PENDING:
            self._enter(atom, state, states.EXECUTE, tells)
        elif state == states.IGNORE:
            old = self._storage.enter(atom.name, state, states.IGNORE, None if atom.is_retry else 0.0)
            if tells:
                self._skipped.append((atom.number, atom, old))
        else:
            self._enter(atom, state, states.RETRY, tells)

    def _tell_skipped(self):
        """Tells of the atoms that a decider skipped, in the order of the flow."""
        skipped, self._skipped = sorted(self._skipped, key=lambda one: one[0]), []
        for _, atom, old in skipped:
            self._tell(atom, states.IGNORE, old, _NOTHING, None if atom.is_retry else 0.0)

    def _enter(self, atom, state, intention, tells):
        progress = None if atom.is_retry else 0.0
        old = self._storage.enter(atom.name, state, intention, progress)
        if tells:
            self._tell(atom, state, old, _NOTHING, progress)

    def _take_end(self, atom, line, tells):
        state, progress = line.state, None
        if state == states.SUCCESS:
            result = self._result(atom, line.rest)
            progress = 1.0
        elif state == states.REVERTED:
            result = self.undone.pop(atom, None)
            progress = 1.0
        else:
            result = self._failure(atom, line.rest)
        if atom.is_retry:
            progress = None
        old = self._storage.put(atom.name, state, result, progress)
        if state == states.FAILURE:
            self._failed = (atom, result)
        if atom.is_retry and state == states.REVERTED:
            self._storage.clean_history(atom.name)
        if tells:
            self._tell(atom, state, old, result, progress)

    def _result(self, atom, rest):
        """The result that a line has: what this process made, where the line has its text, and else what the text says."""
        text, value = self.made.pop(atom, (None, None))
        if text is not None and quoted(text) == rest:
            return value
        given = json.loads(rest)
        return self._texts.value_of(given)[0] if type(given) is str else given

    def _failure(self, atom, rest):
        word, _, more = rest.partition(" ")
        found = self._failures.get(int(more)) if word == "exit" else None
        return found or failure.Failure.from_exception(_exception_of(atom, word, more, rest))

    def _tell(self, atom, state, old, result, progress):
        notifier = self._engine.atom_notifier
        if len(notifier):
            kind = "retry" if atom.is_retry else "task"
            details = {kind + "_name": atom.name, kind + "_uuid": self._storage.detail(atom.name).uuid, "old_state": old}
            if result is not _NOTHING:
                details["result"] = result
            notifier.notify(state, details)
        if progress is not None and len(atom.thing.notifier):
            atom.thing.notifier.notify(tasks.EVENT_UPDATE_PROGRESS, {"progress": progress})

    def _blame(self, line):
        """Puts the failure that is resolved into the histories of the retry controllers that were asked for it."""
        if self._failed is None:
            return
        (atom, fault), name = self._failed, self._failed[0].name
        node = atom.home.home if atom.is_retry else atom.home
        while node is not None:
            if node.retry is not None:
                self._storage.blame(node.retry.name, name, fault)
                name = node.retry.name
                gives_up = retry_kind(node.retry.thing) == "always_revert" or (
                    getattr(node.retry.thing, "_revert_action", None) == retries.REVERT)
                if not gives_up:
                    return
            if line.state == "RETRY" and node.label == line.name:
                return
            node = node.home


def _exception_of(atom, word, more, rest):
    """The exception that stands for a failure which no code of this process raised."""
    if word == "exhausted":
        return exceptions.NotFound("No elements left in collection of iterable retry controller %s" % atom.name)
    if word == "lookup":
        return exceptions.NotFound("Mapped argument %r of %r was not produced by any accessible provider" % (more, atom.name))
    if word == "exit":
        return exceptions.ExecutionFailure("%s failed in another process, whose record of it (number %s) is lost" % (atom.name, more))
    return exceptions.ExecutionFailure("%s failed: %s" % (atom.name, _REASONS.get(word, rest)))
