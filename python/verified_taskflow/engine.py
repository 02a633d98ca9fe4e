"""The engine: TaskFlow's interface over runs of the program."""

import concurrent.futures
import contextlib
import functools
import json
import os
import threading
import time
import weakref

import fasteners
from taskflow import exceptions
from taskflow import states
from taskflow.engines import base
from taskflow.types import failure
from taskflow.types import notifier
from taskflow.utils import misc

from . import links
from . import program
from . import relaying
from .books import Failures, Forms, Home, StopFile, path_of
from .flow_file import FlowFile, value_of
from .plan import Atom, Plan
from .recorder import Line, Recorder
from .refusals import Unsupported
from .session import Session
from .storage import Storage
from .values import NotKept, Texts

HAND_LIMIT = 64
_NO_FLOW = "taskflow: no flow: "
"""What the program says where a book hasn't the flow that is to be shown."""


class Place:
    """Where the runs of one flow detail are: its folder, its book, which plan began there, and how far its lines were taken.

    It stands on the flow detail, so that a further engine of the same flow detail goes on from there."""

    def __init__(self, book, pickled):
        self._home = None
        self._book = book
        self.kept = book is not None
        self.texts = Texts(self.kept, pickled)
        self.failures = Failures(book + ".failures" if self.kept else None)
        self.forms = Forms(book + ".forms") if self.kept else None
        self.forget()

    @property
    def home(self):
        """The folder of the runs. It is made when it is first asked for, and anew behind `rest`."""
        if self._home is None:
            self._home = Home()
        return self._home

    @property
    def book(self):
        """The path (str) of the book: the one that is kept, or one in the folder."""
        return self._book or self.home.path("book")

    @property
    def stop(self):
        """The file that asks the run to stop."""
        return StopFile(self.book)

    def rest(self, is_done):
        """Removes the folder behind a run where nothing in it is needed any more: the book is kept elsewhere, or `is_done`. That mustn't wait
        for the collector, since the tracebacks of failures hold the engine."""
        if self._home is not None and (self.kept or is_done):
            self._home.remove()
            self._home = None

    def forget(self):
        """Takes the flow as one that no run began."""
        self.begun = False
        self.ended = False
        self.plan = None
        self.unsure = self.kept
        self.seen = 0
        self.held = []

    def drop(self):
        """Forgets the runs of a book that isn't kept."""
        self.rest(True)
        self.forget()


def _checked(stored=True, validated=True):
    """Refuses a call of an engine that isn't compiled, or has no storage, or isn't validated, as TaskFlow's engines do."""
    def decorate(method):
        @functools.wraps(method)
        def call(self, *args, **kwargs):
            for wanted, has, what in ((True, self._plan is not None, "been compiled"),
                                      (stored, self._stored, "had its storage populated"),
                                      (validated, self._file is not None, "been validated")):
                if wanted and not has:
                    raise exceptions.InvalidState("Can not %s an engine which has not %s" % (method.__name__, what))
            return method(self, *args, **kwargs)
        return call
    return decorate


class VerifiedEngine(base.Engine):
    """An engine of TaskFlow whose runs are those of the verified program.

    Options, beside `defer_reverts` of TaskFlow (bool):

    - `book` (path): the book that keeps the run; `taskflow.engines.load` hands it on as the flow detail's. Without one nothing
      outlives this process.
    - `hands` (int, 1 to 64; else `max_workers`, at most 64, else 1): how many tasks may be at work at the same time. One hand performs in the
      thread that calls `run`, several in threads of their own, or in `executor`, where that is an object with `submit`.
    - `pickle` (bool): whether results that are no JSON are pickled into a kept book.
    - `workers` (list of addresses, `unix:PATH` or `tcp:127.0.0.1:PORT`): processes that perform in place of this one.
    - `program` (path): the program.

    Raises ValueError for an option that can't be, and Unsupported, with the atom's name and the reason, for what has no form in a flow
    file."""

    def __init__(self, flow, flow_detail, backend, options):
        super().__init__(flow, flow_detail, backend, options)
        self._lock = threading.RLock()
        self._plan = None
        self._file = None
        self._stored = False
        self._session = None
        self._recorder = None
        self._relays = None
        self._statistics = {}
        self._workers = _addresses(self._options.get("workers"))
        self._hands = len(self._workers) or _hands(self._options)
        self._executor = _executor(self._options)
        if _truth(self._options.get("never_resolve")):
            raise ValueError("never_resolve has no form here: each failure is resolved")
        self._place = self._find_place(flow_detail)
        self._refuse_formless()

    def _refuse_formless(self):
        """Raises Unsupported for what has no form whatever the store has. What else is wrong with the flow `compile` tells, as that of
        TaskFlow's engines does."""
        try:
            self._make_plan()
        except Unsupported:
            raise
        except Exception:
            pass

    def _find_place(self, flow_detail):
        book = getattr(flow_detail, "verified_book", None) or self._options.get("book")
        book = path_of(book) if book is not None else None
        place = getattr(flow_detail, "verified_place", None)
        if place is None or book is not None and place.book != book:
            place = flow_detail.verified_place = Place(book, _truth(self._options.get("pickle")))
        return place

    # What TaskFlow's engines have.

    @property
    def statistics(self):
        """What was measured of the last run: `active_for`, in seconds (float)."""
        return self._statistics

    @misc.cachedproperty
    def storage(self):
        """The storage: results, states and failures by the names of atoms and symbols."""
        engine = weakref.ref(self)

        def scopes_of(name):
            living = engine()
            return living._scopes_of(name) if living is not None else None
        return Storage(self._flow_detail, self._backend, scopes_of)

    @misc.cachedproperty
    def _full_compilation(self):
        from taskflow.engines.action_engine import compiler
        return compiler.PatternCompiler(self._flow).compile()

    @property
    def flow_file(self):
        """The text of the flow file (str) that the program runs, as for `taskflow audit`; None before `validate`, and of a flow that
        another process began."""
        return self._file.text if self._file is not None else None

    @property
    def compilation(self):
        """TaskFlow's own compilation of the flow, for who looks at its graph; None before `compile`."""
        return self._full_compilation if self._plan is not None else None

    def _scopes_of(self, name):
        atom = self._plan.by_name.get(name) if self._plan is not None else None
        if atom is None:
            return None
        from taskflow.engines.action_engine import scopes
        return scopes.ScopeWalker(self._full_compilation, atom.thing, names_only=True)

    def compile(self):
        """Makes the flow's plan. Raises TypeError, ValueError or Duplicate where it is no flow, and Unsupported, with the atom's name
        and the reason, where it has no form in a flow file with these values."""
        with self._lock:
            if self._plan is None:
                plan = self._make_plan()
                with contextlib.suppress(exceptions.MissingDependencies):
                    self._check(self._written(plan), plan.root.name)
                self._plan = plan

    def _written(self, plan):
        return FlowFile(plan, self.storage.values(), self._place.texts, self._injected)

    def _injected(self, atom):
        """What an atom takes from nobody: what it is made with, and what the user injected for it into the storage."""
        return {**(atom.thing.inject or {}), **self.storage.injected(atom.name)}

    def _check(self, file, name):
        """Has the program check a flow file, so that what it refuses is refused before a run."""
        status, lines, errors = program.ask([self._program, "check", "--", self._write(file)], "ok ")
        if status != program.SUCCESS:
            raise program.fault_of(name, status, lines[-1] if lines else "", errors)

    def _write(self, file):
        path = self._place.home.path("flow.toml")
        with open(path, "w", encoding="utf-8") as out:
            out.write(file.text)
        return path

    def _make_plan(self):
        plan = Plan(self._flow)
        if self._workers:
            relaying.refuse_far(plan)
        return plan

    @_checked(stored=False, validated=False)
    def prepare(self):
        """Makes the storage of all atoms, takes what the book has of the flow, and puts a reverted flow back. Raises StorageFailure
        where the book can't be read, and InvalidState where it has another flow of this name, or where the flow detail has what no book
        has."""
        with self._lock:
            if not self._stored:
                self._store()
            if self._place.plan not in (None, self._plan):
                self._refuse_other_form(self._place.plan.form())
            # What was reverted another engine may have put back, and run anew.
            if self._place.unsure or self._place.kept and self.storage.get_flow_state() == states.REVERTED:
                self._look()
            if self.storage.get_flow_state() == states.REVERTED:
                self.reset()
            if not self._place.begun:
                self._refuse_begun()

    def _refuse_begun(self):
        """Raises InvalidState where the flow detail has what no run of its place did: the program would run it again from the start."""
        for atom in self._plan.atoms:
            state = self.storage.detail(atom.name).state
            if state != states.PENDING:
                raise exceptions.InvalidState("the flow detail of %s has %s as %s, by another engine or process or by hand: this engine"
                                              " goes on with what book= keeps alone" % (self._plan.root.name, atom.name, state))

    def _store(self):
        self.storage.ensure_atoms(atom.thing for atom in self._plan.atoms)
        for atom in self._plan.atoms:
            if atom.thing.inject:
                self.storage.inject_atom_args(atom.name, atom.thing.inject, transient=True)
        # Neither the recorder nor the storage keeps the engine: its folder goes with it at once.
        self._recorder = Recorder(weakref.proxy(self), self._plan, self.storage, self._place.texts, self._place.failures)
        self._stored = True

    @_checked(validated=False)
    def validate(self):
        """Looks whether each atom's arguments can be given. Raises MissingDependencies where they can't. Of a flow that a kept book has
        nothing is looked at: the book has its values."""
        with self._lock:
            if self._place.kept and self._place.begun:
                self._file = self._file or _InBook()
            else:
                self._file = self._written(self._plan)

    @_checked(stored=False, validated=False)
    def suspend(self):
        """Asks the run to stop: nothing more is begun, what is at work ends, and `run` returns with the flow SUSPENDED. A further
        `run` goes on. From any thread, or from a listener."""
        session = self._session
        self._change_state(states.SUSPENDING)
        if session is not None:
            session.stops = True
            self._place.stop.make()

    @_checked(validated=False)
    def reset(self):
        """Puts the flow back, so that `run` runs it anew. Raises InvalidState where a kept book has what can't be put back: it is put
        back where the flow is REVERTED, and all that ran in it was."""
        with self._lock:
            if self._place.kept:
                self._reset_kept()
            else:
                self._place.drop()
                for atom in self._plan.atoms:
                    if self.storage.get_atom_state(atom.name) != states.PENDING:
                        self._recorder.take(Line("0 0 task %s PENDING" % atom.label))
                    self.storage.set_atom_intention(atom.name, states.EXECUTE)
                self._change_state(states.PENDING)

    def _reset_kept(self):
        if not self._place.begun:
            return
        words = [self._program, "reset", "--", self._place.book, self._plan.root.label]
        status, lines, errors = program.ask_when_free(words, tuple("0123456789"))
        self._take_lines(lines, tells=True)
        if status != program.SUCCESS:
            raise program.fault_of(self._plan.root.name, status, lines[-1] if lines else "", errors)

    def run(self, timeout=None):
        """Runs the flow to its end, or until it is suspended. Raises what a task raised where that wasn't made good, WrappedFailure where
        several failed; MissingDependencies, StorageFailure, InvalidState and Broken where it couldn't run. `timeout` means nothing."""
        with fasteners.try_lock(self._lock) as locked:
            if not locked:
                raise exceptions.ExecutionFailure("Engine currently locked, please try again later")
            for _ in self.run_iter(timeout=timeout):
                pass

    def run_iter(self, timeout=None):
        """The same, as a generator of the states that the engine goes through: RESUMING, SCHEDULING, WAITING, ANALYZING and the last.
        Where something true is sent to it, it is suspended; what is thrown into it ends the run as FAILURE. The thread that takes the
        first state must live until the last: the program ends with it."""
        if self._plan is None:
            self._plan = self._make_plan()
        self.prepare()
        self.validate()
        began = time.monotonic()
        try:
            if self._place.ended:
                yield from self._run_ended()
            else:
                yield from self._run_program()
        finally:
            self._statistics["active_for"] = time.monotonic() - began
            self.storage.flush()
        self._raise_failures()

    # A run.

    @misc.cachedproperty
    def _program(self):
        return program.find(self._options.get("program"))

    def _run_ended(self):
        """A run of a flow that has ended SUCCESS or FAILURE: nothing is left to do."""
        state = self.storage.get_flow_state()
        self._change_state(states.RUNNING)
        self._change_state(state)
        yield state

    def _words(self):
        place = self._place
        if place.begun:
            return [self._program, "resume", "--", place.book, self._plan.root.label]
        deferred = ["--defer-reverts"] if _truth(self._options.get("defer_reverts")) else []
        return [self._program, "run"] + deferred + ["--", self._write(self._file), place.book]

    def _run_program(self):
        self._place.stop.clear()
        self._relays = relaying.Relays(self._workers, _truth(self._options.get("pickle"))) if self._workers else None
        try:
            yield from self._run_sessions()
        finally:
            if self._relays is not None:
                self._relays.close()
            place = self._place
            place.rest(not place.unsure and (place.ended or self.storage.get_flow_state() == states.REVERTED))

    def _run_sessions(self):
        for wait in program.WAITS:
            session = yield from self._run_session()
            if not self._runs_again(session, wait):
                break
        self._end(session)
        if session.status in program.ENDS and session.seen == session.began:
            yield from self._run_elsewhere()
        else:
            yield self.storage.get_flow_state()

    def _runs_again(self, session, wait):
        """Whether a further session follows one that did nothing: another program had the book, which is waited for (seconds), or began
        this flow since it was looked at."""
        if session.status == program.DISK_FAULT and session.seen == session.began:
            time.sleep(wait)
            return True
        if session.status == program.FORBIDDEN and not self._place.begun:
            self._look()
            return self._place.begun
        return False

    def _run_elsewhere(self):
        """The end of a run in which the program had nothing to do: another engine ended the flow in the book meanwhile."""
        self._look()
        self.catch_up(self._place.held)
        self._place.held = []
        if self._place.ended:
            yield from self._run_ended()
        else:
            yield self.storage.get_flow_state()

    def _run_session(self):
        place = self._place
        session = self._session = Session(self, place.home, self._hands, place.held, place.seen)
        try:
            yield from self._watch(session)
        except Exception:
            self._fail_run()
            raise
        finally:
            self._session = None
            place.seen, place.held = session.seen, session.held
            place.begun = place.begun or session.seen > 0
            place.ended = session.status in (program.SUCCESS, program.FAILURE)
            place.unsure = session.status not in program.ENDS or _has_flow(place.held)
            place.stop.clear()
        return session

    def _watch(self, session):
        """Hands the states of a session on, and what the caller sends back to it."""
        closed = False
        for state in session.steps(self._words()):
            if closed:
                continue
            try:
                wants_end = yield state
            except GeneratorExit:
                closed = True
                self.suspend()
            except Exception as fault:
                closed = True
                session.abort(fault)
            else:
                if wants_end:
                    self.suspend()

    def _end(self, session):
        if session.status in program.ENDS:
            return
        if session.stops and session.status < 0:
            # `suspend` left a flow alone that no line had called RUNNING yet.
            if self.storage.get_flow_state() == states.RUNNING:
                self._change_state(states.SUSPENDING)
            self._change_state(states.SUSPENDED)
            return
        fault = program.fault_of(self._plan.root.name, session.status, session.said, session.errors)
        self._fail_run()
        raise fault

    def _fail_run(self):
        """The state of a flow whose run was broken off. Its book has what was done, and goes on with it."""
        if self.storage.get_flow_state() in (states.RUNNING, states.SUSPENDING):
            self._change_state(states.FAILURE)

    def _raise_failures(self):
        state = self.storage.get_flow_state()
        found = list(self.storage.get_revert_failures().values())
        if state == states.REVERTED:
            found = list(self.storage.get_execute_failures().values()) + found
        if state not in (states.SUSPENDED, states.SUCCESS):
            failure.Failure.reraise_if_any(found)

    def _look(self):
        """Takes what the book has and no session said: all of it where this process begins or another one ran the flow, and else what
        the program recorded last before it ended, which is held until the flow goes on."""
        place = self._place
        place.unsure = False
        lines = self._shown()
        if not lines:
            if self._place.kept:
                place.forms.forget(self._plan.root.label)
            return
        if self._place.kept:
            self._compare()
        new = [line for line in _entries(lines) if line.number > place.seen]
        if place.begun and not _has_flow(place.held + new):
            place.held += new
        else:
            self.catch_up(place.held + new)
            place.held = []
        place.begun = True
        place.ended = any(text.startswith("state ") and text.split(" ")[2] in (states.SUCCESS, states.FAILURE) for text in lines)
        place.seen = new[-1].number if new else place.seen

    def _shown(self):
        """What the program shows of this flow in the book (a list of str), with nothing where the flow isn't there. Raises
        StorageFailure where the book can't be read, and InvalidState where it has another flow of this name."""
        place = self._place
        if not os.path.exists(place.book) or not os.path.getsize(place.book):
            return []
        status, lines, errors = program.ask([self._program, "show", "--", place.book, self._plan.root.label], "state ")
        if status == program.FORBIDDEN or status == program.UNSAID and lines and lines[-1].startswith(_NO_FLOW):
            return []
        if status != program.SUCCESS:
            raise program.fault_of(self._plan.root.name, status, lines[-1] if lines else "", errors)
        self._refuse_other_atoms(lines)
        return lines

    def catch_up(self, lines):
        """Takes lines that no session of this engine said. Listeners hear of the atoms where this engine ran the flow before, as the
        lines may be of its own run; the states of the flow are silent, since they are those of several runs."""
        for line in lines:
            self._recorder.take(line, tells=self._place.begun and line.kind != "flow")

    def missed(self, seen, number):
        """The lines of the book's entries behind `seen` and before `number` (both int)."""
        return [line for line in _entries(self._shown()) if seen < line.number < number]

    def _compare(self):
        """Refuses a flow that has another form than the book's, and takes the book's store: its tasks get that, whatever was given now."""
        found = self._place.forms.find(self._plan.root.label)
        if found is None:
            return
        form, store = found
        self._refuse_other_form(form)
        if store:
            self.storage.inject({symbol: self._place.texts.value_of(text)[0] for symbol, text in store.items()})

    def _refuse_other_form(self, form):
        if form != self._plan.form():
            raise exceptions.InvalidState("the book %s has another flow of the name %s: other atoms, or these in another order, with other"
                                          " deciders or other symbols" % (self._place.book, self._plan.root.name))

    def _refuse_other_atoms(self, lines):
        theirs = [text.split(" ", 2)[1] for text in lines if text.startswith("atom ")]
        ours = set(self._plan.by_label) | set(self._plan.hidden_by_label)
        if set(theirs) != ours:
            odd = sorted(set(theirs) ^ ours)[0]
            raise exceptions.InvalidState("the book %s has another flow of the name %s: only one of the two has %s"
                                          % (self._place.book, self._plan.root.name, odd))

    def _take_lines(self, lines, tells):
        for text in lines:
            if text[:1].isdigit():
                line = Line(text)
                self._recorder.take(line, tells)
                self._place.seen = line.number

    def _change_state(self, state):
        moved, old_state = self.storage.change_flow_state(state)
        if moved and len(self.notifier):
            self.notifier.notify(state, {"engine": self, "flow_name": self.storage.flow_name,
                                         "flow_uuid": self.storage.flow_uuid, "old_state": old_state})

    # What a session asks.

    def take(self, line):
        """Takes a line of the run."""
        if line.number == 1:
            self._place.plan = self._plan
            if self._place.kept:
                self._place.forms.add(self._plan.root.label, self._plan.form(), self._file.stored)
        self._recorder.take(line)

    def label_of(self, word):
        """The name in the file of what a request asks for."""
        return self._plan.label_of(word)

    def is_hidden(self, label):
        """Whether what has this name in the file is none of the flow's atoms."""
        return label in self._plan.hidden_by_label

    def perform(self, request):
        """Performs a request, and gives its outcome: bytes, the members of the message."""
        hidden = self._plan.hidden_by_label.get(request.label)
        if hidden is not None:
            return self._decide(hidden)
        atom = self._plan.by_label[request.label]
        if self._executor is not None:
            return self._executor.submit(self._perform, atom, request).result()
        return self._perform(atom, request)

    def _perform(self, atom, request):
        undoes = request.action == "revert"
        try:
            kwargs = self._kwargs(atom, undoes, request.given)
        except Exception:
            return self._failed(failure.Failure())
        if undoes:
            kwargs["result"] = self.storage.get(atom.name)
            kwargs["flow_failures"] = self.storage.get_failures()
            return self._reverted(atom, self._call(atom.thing, "revert", kwargs))
        return self._executed(atom, self._call(atom.thing, "execute", kwargs))

    def _kwargs(self, atom, undoes, given):
        """The arguments of a method. Raises LookupError where one that isn't optional has no value."""
        thing, kwargs, injected = atom.thing, {}, self._injected(atom)
        rebind, optional = (thing.revert_rebind, thing.revert_optional) if undoes else (thing.rebind, thing.optional)
        for name, symbol in rebind.items():
            if symbol in injected:
                kwargs[name] = injected[symbol]
                continue
            try:
                kwargs[name] = value_of(given, symbol, self._place.texts)
            except LookupError:
                if symbol not in optional:
                    raise
        return kwargs

    def _call(self, task, what, kwargs):
        """What a task's method gives between its hooks, or its failure."""
        if self._relays is not None:
            return self._relays.ask(task, what, kwargs)
        progress = functools.partial(self._on_progress, task)
        event = "update_progress" if task.notifier.can_be_registered("update_progress") else None
        with notifier.register_deregister(task.notifier, event, callback=progress if event else None):
            try:
                getattr(task, "pre_" + what)()
                return getattr(task, what)(**kwargs)
            except Exception:
                return failure.Failure()
            finally:
                getattr(task, "post_" + what)()

    def _on_progress(self, task, event, details):
        progress = details.pop("progress", None)
        if progress is not None:
            self.storage.set_task_progress(task.name, progress, details=details)

    def _executed(self, atom, result):
        if isinstance(result, failure.Failure):
            return self._failed(result)
        try:
            text = self._place.texts.text_of(result, atom.places, "the result of %s" % atom.name, atom.name)
        except NotKept:
            return self._failed(failure.Failure())
        self._recorder.made[atom] = (text, result)
        return _SUCCESS % json.dumps(text, ensure_ascii=False).encode()

    def _reverted(self, atom, result):
        if isinstance(result, failure.Failure):
            return self._failed(result)
        self._recorder.undone[atom] = result
        return _SUCCESS % b"null"

    def _failed(self, fault):
        return b'"failure":["exit",%d],"state":"FAILURE"' % self._place.failures.add(fault)

    def _decide(self, hidden):
        """Asks a decider, of the results of all sources of the decided links to its task that weren't skipped."""
        history = {}
        for edge, _ in self._plan.edges(hidden.atom):
            name = edge.source.name
            if type(edge.source) is Atom and self.storage.get_atom_state(name) != states.IGNORE:
                history[name] = self.storage.get(name)
        edge, answer = hidden.edge, True
        if edge is not None and (type(edge.source) is not Atom or edge.source.name in history):
            answer = bool(edge.decider(history=history))
        return _SUCCESS % json.dumps(self._place.texts.text_of(answer)).encode()


_SUCCESS = b'"result":%b,"state":"SUCCESS"'


def _has_flow(lines):
    """Whether a line is of the flow's own states: it is held only where its run was broken off, or another engine ran the flow."""
    return any(line.kind == "flow" for line in lines)


def _entries(lines):
    """The lines that are entries, among those that the program shows."""
    return [Line(text) for text in lines if text[:1].isdigit()]


class _InBook:
    """Stands for the flow file of a flow that a book has already."""

    text, stored = None, {}


def _truth(value):
    """Whether an option is on: a bool, or one of the words that TaskFlow takes for true."""
    return value.strip().lower() in ("1", "t", "true", "on", "y", "yes") if isinstance(value, str) else bool(value)


def _hands(options):
    given = options.get("hands")
    if given is None and options.get("max_workers") is not None:
        # TaskFlow has no limit of threads; more than the program has hands for would idle.
        given = min(int(options["max_workers"]), HAND_LIMIT)
    hands = 1 if given is None else int(given)
    if not 1 <= hands <= HAND_LIMIT:
        raise ValueError("hands are 1 to %d, not %s" % (HAND_LIMIT, given))
    return hands


def _executor(options):
    given = options.get("executor")
    if given is None or isinstance(given, str) and given.lower() in ("thread", "threads", "threaded"):
        return None
    if isinstance(given, (str, concurrent.futures.ProcessPoolExecutor)) or not hasattr(given, "submit"):
        raise ValueError("tasks are performed in threads, not in %r" % (given,))
    return given


def _addresses(given):
    if not given:
        return []
    addresses = given.split(",") if isinstance(given, str) else list(given)
    for address in addresses:
        if not links.is_address(address):
            raise ValueError("a worker's address is unix:PATH or tcp:127.0.0.1:PORT, not %r" % (address,))
    return addresses
