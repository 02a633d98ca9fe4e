"""The program `taskflow`: where it is, how it is started, and what its statuses mean."""

import contextlib
import ctypes
import os
import shutil
import signal
import subprocess
import time

from taskflow import exceptions
from taskflow import states

from .refusals import Broken, Unsupported

VARIABLE = "TASKFLOW_PROGRAM"
"""The environment variable that may name the program's path."""

_INSTALLED = "/usr/lib/taskflow/taskflow"
_SET_DEATH_SIGNAL = 1
_SHARED_FILES = 0x400
_CLONE = {"x86_64": 56, "aarch64": 220}
_library = ctypes.CDLL(None)

SUCCESS, REFUSED, DISK_FAULT, REVERTED, FAILURE, SUSPENDED, FORBIDDEN = 0, 4, 5, 10, 11, 12, 14
ENDS = (SUCCESS, REVERTED, FAILURE, SUSPENDED)
UNSAID = 255
"""Stands for a status that was lost, or that a program gave which didn't say how it ended."""

_END_WORDS = {states.SUCCESS: SUCCESS, states.REVERTED: REVERTED, states.FAILURE: FAILURE, states.SUSPENDED: SUSPENDED}


def find(given=None):
    """The path (str) of the program: the one that is given, that of the variable, the installed one, or `taskflow` along PATH.

    Raises Broken where there is none."""
    for path in (given, os.environ.get(VARIABLE), _INSTALLED, shutil.which("taskflow")):
        if path and os.access(path, os.X_OK) and not os.path.isdir(path):
            return os.path.abspath(path)
        if path and path is not _INSTALLED:
            break
    raise Broken("there is no program taskflow: install it, or name it by program=.. or by %s" % VARIABLE)


@contextlib.contextmanager
def _deaf():
    """While this holds, a process that is started never hears the signals by which a terminal or a service manager stops a whole group:
    what follows from them is for the user's process to say, which may handle them."""
    before = signal.pthread_sigmask(signal.SIG_BLOCK, (signal.SIGINT, signal.SIGTERM, signal.SIGHUP))
    try:
        yield
    finally:
        signal.pthread_sigmask(signal.SIG_SETMASK, before)


def start(words, errors, keep, hold):
    """Starts the program with these words (a list of str), and gives its process to `hold`, before an interruption can come between. Its
    standard error goes to the file `errors`, and it inherits the file descriptors `keep`. It is killed when the thread that started it
    ends, so that it never outlives this process, and hears no signal that asks it to end."""
    parent = os.getpid()

    def die_with_parent():
        _library.prctl(_SET_DEATH_SIGNAL, signal.SIGKILL)
        if os.getppid() != parent:
            os._exit(1)

    with open(errors, "wb") as file, _deaf():
        hold(subprocess.Popen(words, stdin=subprocess.DEVNULL, stdout=subprocess.PIPE, stderr=file, pass_fds=keep,
                              preexec_fn=die_with_parent, bufsize=0))


def ask(words, front):
    """Runs the program to its end, and gives its status and the lines (list of str) that it said, and its standard error (str). A status of 0
    is UNSAID where no line begins with `front` (str, or a tuple of some)."""
    with _deaf():
        process = subprocess.Popen(words, stdin=subprocess.DEVNULL, stdout=subprocess.PIPE, stderr=subprocess.PIPE)
    with process:
        said, errors = process.communicate()
    lines = said.decode().splitlines()
    lost = process.returncode == SUCCESS and not any(line.startswith(front) for line in lines)
    return UNSAID if lost else process.returncode, lines, errors.decode("utf-8", "replace")


def status_of(code, said, killed):
    """The status (int) of a run whose process ended with `code` (int) and the line `said`, `end FLOW STATE` or empty; `killed` tells whether
    this process killed it.

    The code alone means nothing: Python gives 0 for a process that somebody else reaped, as a handler of SIGCHLD may do, and the kernel
    does where that is ignored."""
    word = said.rpartition(" ")[2]
    if word in _END_WORDS and code in (SUCCESS, _END_WORDS[word]):
        return _END_WORDS[word]
    if code in ENDS:
        return -signal.SIGKILL if killed else UNSAID
    return code


class Holder:
    """A process that shares this one's file descriptors and does nothing else. Where this process is killed the descriptors stay open until
    the holder is killed too, and that is after the program, which was started before it: so no link of the program ends before the program
    does, however early the kill comes. On machines whose number of the system call isn't known here there is none.

    It is made by the system call alone, since a copy of Python that ran on would be another process of the user's; it takes no signal, and
    makes two calls."""

    def __init__(self):
        self._child = None

    def start(self):
        """Makes it. Whoever is interrupted here has it already, and ends it."""
        number = _CLONE.get(os.uname().machine)
        if number is None:
            return
        parent, calls = os.getpid(), ctypes.PyDLL(None)
        call, set_death, parent_of, leave, wait = calls.syscall, calls.prctl, calls.getppid, calls._exit, calls.pause
        before = signal.pthread_sigmask(signal.SIG_BLOCK, signal.valid_signals())
        child = call(number, _SHARED_FILES | signal.SIGCHLD, 0, 0, 0, 0)
        if child == 0:
            set_death(_SET_DEATH_SIGNAL, signal.SIGKILL)
            if parent_of() != parent:
                leave(1)
            while True:
                wait()
        self._child = child if child > 0 else None
        signal.pthread_sigmask(signal.SIG_SETMASK, before)

    def end(self):
        """Ends it."""
        if self._child is not None:
            # Where children are reaped by others, as by a handler of SIGCHLD, it may be gone already.
            with contextlib.suppress(ChildProcessError, ProcessLookupError):
                os.kill(self._child, signal.SIGKILL)
                os.waitpid(self._child, 0)
            self._child = None


WAITS = (0.01, 0.05, 0.2, 0.5, 1, 1, 2)
"""How long, in seconds, a book is waited for that another program has: that of a process that was just killed ends once its last
write is on the disk."""


def ask_when_free(words, front):
    """The same of a command that writes a book, once no other program has it; after WAITS what it said last."""
    for wait in WAITS:
        status, lines, errors = ask(words, front)
        if status != DISK_FAULT or any(line[:1].isdigit() for line in lines):
            break
        time.sleep(wait)
    return status, lines, errors


def fault_of(name, status, said, errors):
    """What a status that isn't the end of a run of the flow `name` is raised as: `said` is the program's last line, `errors` its
    standard error."""
    text = "%s%s" % (said or "the program ended with the status %d" % status, ": " + errors.strip() if errors.strip() else "")
    if status < 0:
        return Broken("the program was ended by signal %d; the book has what was done, and run() goes on with it" % -status)
    if status == UNSAID:
        return Broken("the program ended without saying how: it is another program, or its status was taken by who ignores SIGCHLD or"
                      " reaps every child (%s)" % (errors.strip() or said or "it said nothing"))
    if status == REFUSED:
        return Unsupported(name, "the program refuses its flow file: %s" % said)
    if status in (DISK_FAULT, 6, 13, 16):
        return exceptions.StorageFailure(text)
    if status == FORBIDDEN:
        return exceptions.InvalidState(text)
    return Broken(text)
