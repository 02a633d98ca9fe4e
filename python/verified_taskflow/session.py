"""A session: the program runs the flow, and asks this process for each task."""

import collections
import contextlib
import json
import os
import queue
import select
import socket
import sys
import threading

from taskflow import states

from . import program
from .recorder import Line

_FRAME = 4
_ONE, _INT = (b"l",), 4
_FINAL = frozenset((states.SUCCESS, states.REVERTED, states.FAILURE))
_PIECE = 262_144
_PATIENCE = 20
"""How long, in milliseconds, a session waits for the next request before it looks at the lines that come meanwhile: the program says
the end of a task and the begin of the next before it asks, so that one wait is enough for all three."""


class Request:
    """What the program asks: to execute or revert (`action`) what has a `label` in the file, with values by names (`given`, a dict)."""

    __slots__ = ("link", "id", "action", "label", "given")

    def __init__(self, link, order):
        self.link = link
        self.id = order["id"]
        self.action = order["action"]
        self.label = order["words"][0]
        self.given = dict(order["args"])


class Link:
    """The program's end of a hand: requests come over it, one at a time."""

    def __init__(self, end):
        self._end = end
        self._came = b""

    def fileno(self):
        return self._end.fileno()

    def read(self):
        """Reads what came, and gives the request that is whole then, or None. Raises EOFError at the link's end."""
        piece = self._end.recv(_PIECE)
        if not piece:
            raise EOFError
        came = self._came + piece if self._came else piece
        if len(came) < _FRAME or len(came) < _FRAME + int.from_bytes(came[:_FRAME], "big"):
            self._came = came
            return None
        self._came = b""
        return Request(self, json.loads(came[_FRAME:]))

    def answer(self, number, outcome):
        """Sends that the order runs, and its outcome (bytes, members of the message)."""
        one = b'{"id":%d,"state":"RUNNING"}' % number
        other = b'{"id":%d,%b}' % (number, outcome)
        self._end.sendall(len(one).to_bytes(_FRAME, "big") + one + len(other).to_bytes(_FRAME, "big") + other)

    def close(self):
        self._end.close()


class Hands:
    """Threads that perform, as many as there are hands."""

    def __init__(self, count, perform, abort):
        self._jobs = queue.SimpleQueue()
        self._perform = perform
        self._abort = abort
        self._threads = [threading.Thread(target=self._work, daemon=True, name="taskflow-hand-%d" % at) for at in range(count)]

    def start(self):
        """Starts the threads. Where that is interrupted, `end` ends those that were."""
        for thread in self._threads:
            thread.start()

    def _work(self):
        for request in iter(self._jobs.get, None):
            try:
                outcome = self._perform(request)
            except BaseException as fault:
                self._abort(fault)
                continue
            # The program is gone where the answer can't be sent; the session sees that by itself. An OSError of what was performed isn't that.
            with contextlib.suppress(OSError):
                request.link.answer(request.id, outcome)

    def take(self, request):
        self._jobs.put(request)

    def end(self, waits):
        """Ends the threads once they have done what they are at; waits for that where `waits`."""
        for _ in self._threads:
            self._jobs.put(None)
        for thread in self._threads:
            if waits and thread.ident is not None:
                thread.join()


class Session:
    """One run of the program. `host` performs and takes lines: `perform(request)` gives an outcome, `is_hidden(label)` tells what is
    performed in the thread of the session, `label_of(word)` gives the name by which lines call what a request asks for, `take(line)` takes
    a line, `missed(seen, number)` gives the lines of another run's entries between two numbers, and `catch_up(lines)` takes such.

    `seen` is the number of the last entry that was said; `held` are lines of entries that the program recorded after it was
    asked to stop: they are taken when the flow goes on."""

    def __init__(self, host, home, hands, held, seen):
        self._host = host
        self._home = home
        self._hands = hands
        self._lines = collections.deque()
        self._current = ()
        self._came = b""
        self.held = held
        self.seen = self.began = seen
        self.said = self._ended = ""
        self.status = None
        self.stops = False
        self._killed = False
        self._links = {}
        self._asked = {}
        self._started = {}
        self._ready = collections.deque()
        self._busy = set()
        self._expects = False
        self._phase = None
        self._fault = None
        self._pool = None
        self._process = None
        self._holder = None

    # What others ask of a session.

    def abort(self, fault=None):
        """Ends the program at once, from any thread; `steps` raises the fault, if one is given."""
        self._fault = self._fault or fault
        self._kill()

    def _kill(self):
        self._killed = True
        if self._process is not None:
            self._process.kill()

    def _end(self):
        """Waits for the program's end."""
        self.status = program.status_of(self._process.wait(), self._ended, self._killed)

    # Its course.

    def steps(self, words):
        """Runs the program with these words, to which those that name this session's hands are added. Yields TaskFlow's states of an
        engine: RESUMING, then SCHEDULING, WAITING and ANALYZING again and again."""
        door = self._open_door()
        ours, theirs = socket.socketpair()
        errors = self._home.path("errors")
        try:
            worker = ",".join(["unix:" + self._home.path("s")] * self._hands)
            keep = (theirs.fileno(), door.fileno())
            program.start([words[0], words[1], "--worker", worker] + words[2:], errors, keep, self._hold)
            self._holder = program.Holder()
            self._holder.start()
            theirs.close()
            self._output = self._process.stdout.fileno()
            if self._hands > 1:
                self._pool = Hands(self._hands, self._host.perform, self.abort)
                self._pool.start()
            self._keeper = ours
            yield from self._go_on(door)
        finally:
            theirs.close()
            self._close(door, ours)
        if self._fault is not None:
            raise self._fault
        with open(errors, "rb") as file:
            self.errors = file.read().decode("utf-8", "replace")

    def _hold(self, process):
        self._process = process

    def _open_door(self):
        door = socket.socket(socket.AF_UNIX)
        path = self._home.path("s")
        if os.path.exists(path):
            os.unlink(path)
        door.bind(path)
        os.chmod(path, 0o600)
        door.listen(self._hands)
        return door

    def _close(self, door, keeper):
        if self._process is not None:
            if self._process.poll() is None and self.status is None:
                self._kill()
            self._end()
            self._process.stdout.close()
        if self._holder is not None:
            self._holder.end()
        self._hold_lines()
        if self._pool is not None:
            self._pool.end(self._fault is None)
            self._pool = None
        for link in self._links.values():
            link.close()
        keeper.close()
        door.close()

    def _hold_lines(self):
        """Holds the lines that weren't taken, with the one whose taking was interrupted: that is taken again."""
        left = {line.number: line for line in [*self.held, *self._current, *self._lines]}
        self.held = [left[number] for number in sorted(left)]
        self.seen = max(self.seen, *left, 0)
        self._lines.clear()

    def _go_on(self, door):
        self._all, self._ends = select.poll(), select.poll()
        self._all.register(self._output, select.POLLIN)
        self._all.register(door, select.POLLIN)
        while True:
            if self._expects:
                self._expects = False
                self._ends.poll(_PATIENCE)
            for handle, _ in self._all.poll():
                if handle == self._output:
                    if not self._read_lines():
                        yield from self._take_lines()
                        self._end()
                        return
                elif handle == door.fileno():
                    self._welcome(door)
                else:
                    self._read_request(self._links[handle])
            yield from self._take_lines()
            yield from self._serve()
            if self._is_stuck():
                self._kill()

    def _welcome(self, door):
        """Takes a link of the program, and leaves a copy of it at once in a socket that the program itself holds, as it does the one that
        links wait at: so no link ends for the program when this process is killed, and no task of the book is taken for lost."""
        end, _ = door.accept()
        with contextlib.suppress(BrokenPipeError, ConnectionResetError):
            self._keeper.sendmsg(_ONE, [(socket.SOL_SOCKET, socket.SCM_RIGHTS, end.fileno().to_bytes(_INT, sys.byteorder))])
        self._links[end.fileno()] = Link(end)
        self._all.register(end, select.POLLIN)
        self._ends.register(end, select.POLLIN)
        if len(self._links) == self._hands:
            self._all.unregister(door)

    def _read_lines(self):
        piece = os.read(self._output, _PIECE)
        came = self._came + piece
        if not piece:
            return False
        *whole, self._came = came.split(b"\n")
        for text in whole:
            if text[:1].isdigit():
                line = Line(text.decode())
                if self.seen == self.began and line.number > self.seen + 1:
                    self._catch_up(line.number)
                self._lines.append(line)
                self.seen = line.number
            else:
                self.said = text.decode()
                self._ended = self.said if self.said.startswith("end ") else self._ended
        return True

    def _catch_up(self, number):
        """Takes the entries before the first one of this run: another run recorded them while this one waited for the book."""
        self._host.catch_up(self.held + self._host.missed(self.seen, number))
        self.held = []

    def _read_request(self, link):
        try:
            request = link.read()
        except (EOFError, OSError):
            self._all.unregister(link.fileno())
            self._ends.unregister(link.fileno())
            return
        if request is not None:
            request.label = self._host.label_of(request.label)
            self._asked[request.label] = request
            self._match(request.label)

    def _match(self, label):
        """Gets ready what was both asked for and said to have begun."""
        if label in self._asked and self._started.pop(label, False):
            self._ready.append(self._asked.pop(label))

    # Lines.

    def _take_lines(self):
        while self._lines:
            line = self._lines[0]
            if self.stops and not self._goes_through(line):
                self.held.append(line)
                self._lines.popleft()
                continue
            if line.is_start() and self._phase != states.SCHEDULING:
                if self._phase is None:
                    yield states.RESUMING
                self._phase = states.SCHEDULING
                yield states.SCHEDULING
                continue
            if line.is_end() and self._phase == states.SCHEDULING:
                self._phase = states.ANALYZING
                yield states.WAITING
                yield states.ANALYZING
            self._current = (line,)
            self._lines.popleft()
            self._take(line)
            self._current = ()

    def _goes_through(self, line):
        """Whether a line is taken although the run is to stop: the end of what is at work, and what the flow says."""
        return line.kind == "flow" or line.is_end() and line.name in self._busy

    def _take(self, line):
        if line.kind == "flow":
            if self.held and line.state in _FINAL:
                self.stops = False
                self._lines.appendleft(line)
                self._take_held()
                return
            self._host.take(line)
            if self.held and line.state == states.RUNNING:
                self._take_held()
            return
        if line.is_end():
            self._started.pop(line.name, None)
            self._busy.discard(line.name)
        self._host.take(line)
        if line.is_start() or line.kind == "restart":
            self._started[line.name] = True
            self._busy.add(line.name)
            self._match(line.name)

    def _take_held(self):
        self._lines.extendleft(reversed(self.held))
        self.held = []

    # Tasks.

    def _serve(self):
        while self._ready:
            request = self._ready.popleft()
            self._expects = True
            if self._pool is not None and not self._host.is_hidden(request.label):
                self._pool.take(request)
                continue
            outcome = self._host.perform(request)
            if self._phase == states.SCHEDULING:
                self._phase = states.ANALYZING
                yield states.WAITING
                yield states.ANALYZING
            try:
                request.link.answer(request.id, outcome)
            except OSError:
                pass

    def _is_stuck(self):
        """Whether the run is to stop, nothing is at work, and the program waits for something that it began after it was asked to stop:
        then it is ended where it stands. A crash loses nothing, and what it began is begun again when the flow goes on."""
        return (self.stops and bool(self._asked) and not self._busy
                and any(line.name in self._asked for line in self.held))
