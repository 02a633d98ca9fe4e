"""Where runs are kept: books, the failures beside them, and the folder of an engine."""

import contextlib
import fcntl
import json
import os
import shutil
import tempfile
import threading
import time
import weakref

from taskflow import exceptions
from taskflow.persistence import models
from taskflow.types import failure

_PREFIX = "verified-taskflow-"
_BASE_LIMIT = 72
"""The most bytes of a path in which a folder of ours has a socket: the kernel takes 107 for all."""
STOP_TEXT = b"suspended by verified_taskflow\n"


def path_of(given):
    """The whole path (str) of a book's file. Raises ValueError for a folder, and for an empty path, which would mean the current one."""
    path = os.fspath(given)
    if not path or os.path.isdir(path):
        raise ValueError("a book is a file, not %r" % path)
    return os.path.abspath(path)


class Book(models.LogBook):
    """A book of the program in the place of a logbook: `taskflow.engines.load(flow, engine="verified", book=Book(path))`.

    `path` (str or PathLike) is the file; it is made by the first run. A path may stand in its place where this package was
    imported before. Raises ValueError for a folder."""

    def __init__(self, path):
        self.path = path_of(path)
        super().__init__(os.path.basename(self.path))

    def add(self, flow_detail):
        super().add(flow_detail)
        flow_detail.verified_book = self.path

    def find(self, flow_uuid):
        return super().find(flow_uuid)


class Home:
    """A folder of mode 0700 for one flow detail: the flow file, the socket, what the program says on standard error, and the book
    where none is kept. It is removed with this object. A lock tells that its process lives: folders that killed processes left are removed
    by the next one. Raises StorageFailure where there is no place for it."""

    def __init__(self):
        base = _base()
        _sweep(base)
        self.folder = tempfile.mkdtemp(prefix=_PREFIX, dir=base)
        lock = open(self.path("lock.new"), "w")
        fcntl.flock(lock, fcntl.LOCK_EX)
        os.rename(lock.name, self.path("lock"))
        self.remove = weakref.finalize(self, _remove, self.folder, lock, os.getpid())

    def path(self, name):
        """The path (str) of a file in the folder."""
        return os.path.join(self.folder, name)


def folders():
    """The folders (a tuple of paths) of which the first that will do has the homes: memory, where there is some, and else temporary ones."""
    return "/dev/shm", tempfile.gettempdir(), "/tmp", "/var/tmp"


def _base():
    """A folder in which a socket may be. The program takes a list of addresses with commas between, each short enough for the kernel."""
    for path in folders():
        if os.access(path, os.W_OK | os.X_OK) and "," not in path and len(os.fsencode(path)) <= _BASE_LIMIT:
            return path
    raise exceptions.StorageFailure("sockets can be in none of %s: one must be writable, without a comma, and have at most %d bytes"
                                    % (", ".join(folders()), _BASE_LIMIT))


def _remove(folder, lock, process):
    if os.getpid() == process:
        shutil.rmtree(folder, ignore_errors=True)
    lock.close()


def _sweep(base):
    for name in os.listdir(base):
        if name.startswith(_PREFIX):
            with contextlib.suppress(OSError):
                _sweep_folder(os.path.join(base, name))


def _sweep_folder(folder):
    """Removes a folder whose process is gone: nobody has its lock, or it got none within a minute."""
    if not os.path.exists(os.path.join(folder, "lock")):
        if time.time() - os.stat(folder).st_mtime > 60:
            shutil.rmtree(folder, ignore_errors=True)
        return
    with open(os.path.join(folder, "lock")) as lock:
        fcntl.flock(lock, fcntl.LOCK_EX | fcntl.LOCK_NB)
        shutil.rmtree(folder, ignore_errors=True)


class Failures:
    """The failures of a book's tasks. The book has of each its number, counted from 1; the file BOOK`.failures` beside it has a line
    of JSON for each, which is on the disk before the book has the number; its mode is 0600. Without a path they stay in this process.

    A failure of this process is kept as it is, with its traceback; of another process's there are the type, the message and the
    traceback as text."""

    def __init__(self, path=None):
        self._path = path
        self._here = {}
        self._lines = []
        self._size = 0
        self._lock = threading.Lock()

    def _read(self):
        """The lines of the file as it is now: other processes add to it while none of this one's flows runs."""
        if self._path is not None and os.path.exists(self._path) and os.path.getsize(self._path) != self._size:
            with open(self._path, "rb") as file:
                text = file.read()
            self._lines, self._size = text.splitlines(), len(text)
        return self._lines

    def add(self, fault):
        """Keeps a failure, and gives its number (int)."""
        with self._lock:
            if self._path is None:
                self._lines.append(b"")
            else:
                self._write(_line_of(fault), b"\n" if self._read() and not _ends_whole(self._path) else b"")
            number = len(self._lines)
            self._here[number] = fault
            return number

    def _write(self, line, front):
        with open(self._path, "ab", opener=_open_private) as file:
            file.write(front + line + b"\n")
            file.flush()
            os.fsync(file.fileno())
            self._size = file.tell()
        self._lines.append(line)

    def get(self, number):
        """The failure of a number, or None where its line is lost."""
        if number in self._here:
            return self._here[number]
        with self._lock:
            lines = self._read()
        if not 1 <= number <= len(lines):
            return None
        try:
            self._here[number] = failure.Failure.from_dict(json.loads(lines[number - 1]))
        except (ValueError, KeyError, TypeError):
            return None
        return self._here[number]


class Forms:
    """What the flows of a book were begun with: the file BOOK`.forms` beside it, of mode 0600, has a line of JSON for each begin, of which
    the last of a flow's name counts. The book has all of it too; this is what this package compares and tells."""

    def __init__(self, path):
        self._path = path

    def find(self, name):
        """What a flow was begun with: its form (str) and its store (a dict from symbols to texts); or None where that isn't known."""
        found = None
        for line in self._lines():
            try:
                words = json.loads(line)
                if words["flow"] == name:
                    found = (words["form"], dict(words["store"])) if words["form"] else None
            except (ValueError, KeyError, TypeError):
                # A line that a crash cut off says nothing.
                continue
        return found

    def _lines(self):
        if not os.path.exists(self._path):
            return []
        with open(self._path, "rb") as file:
            return file.read().splitlines()

    def add(self, name, form, store):
        """Keeps what a flow was begun with."""
        with open(self._path, "ab", opener=_open_private) as file:
            front = b"\n" if file.tell() and not _ends_whole(self._path) else b""
            file.write(front + json.dumps({"flow": name, "form": form, "store": store}).encode() + b"\n")

    def forget(self, name):
        """Forgets a flow that the book hasn't: another book stood at this path before."""
        if self.find(name) is not None:
            self.add(name, None, {})


def _open_private(path, flags):
    """A file that the user alone may read, as the book is: messages and tracebacks may tell a secret."""
    return os.open(path, flags, 0o600)


def _line_of(fault):
    try:
        return json.dumps(fault.to_dict()).encode()
    except (TypeError, ValueError):
        return json.dumps(fault.to_dict(include_args=False)).encode()


def _ends_whole(path):
    with open(path, "rb") as file:
        file.seek(-1, os.SEEK_END)
        return file.read(1) == b"\n"


class StopFile:
    """The file that asks a run to stop: BOOK`.stop`. What this package made is told by its text, so that one which a killed process
    left doesn't stop the next run, while a file of somebody else's does."""

    def __init__(self, book):
        self._path = book + ".stop"

    def make(self):
        """Asks the run to stop."""
        try:
            handle = os.open(self._path, os.O_WRONLY | os.O_CREAT | os.O_EXCL, 0o600)
        except FileExistsError:
            return
        with os.fdopen(handle, "wb") as file:
            file.write(STOP_TEXT)

    def clear(self):
        """Removes the file where this package made it."""
        try:
            with open(self._path, "rb") as file:
                ours = file.read(len(STOP_TEXT) + 1) == STOP_TEXT
        except OSError:
            return
        if ours:
            os.unlink(self._path)
