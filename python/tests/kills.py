"""Kills processes that run flows at random moments, and goes on with their books: `kills.py COUNT [SEED]`.

Each process is a copy of this one, so that TaskFlow is imported once. A task writes a line to a log when it begins. What the book has
as finished at the moment of a kill must not begin again, unless the book says afterwards that it was put back or undone; a task begins at most as often as
the book says; and in the end the results are those of an undisturbed run."""

import os
import random
import shutil
import signal
import subprocess
import sys
import tempfile
import time

import taskflow.engines
import verified_taskflow
from taskflow import exceptions
from taskflow import retry
from taskflow import task
from taskflow.patterns import graph_flow, linear_flow, unordered_flow

PROGRAM = os.environ["TASKFLOW_PROGRAM"]
assert verified_taskflow.__all__


def note(word, name):
    handle = os.open("log", os.O_WRONLY | os.O_APPEND | os.O_CREAT)
    os.write(handle, ("%s %s\n" % (word, name)).encode())
    os.close(handle)


class Step(task.Task):
    """Waits a little, and gives the sum of what it takes and 1."""

    def execute(self, **values):
        note("begin", self.name)
        time.sleep(random.random() * 0.004)
        return sum(values.values()) + 1

    def revert(self, result, **values):
        note("undo", self.name)
        time.sleep(random.random() * 0.002)


class Flaky(Step):
    """Fails before the third attempt."""

    def execute(self, attempt, **values):
        super().execute()
        if attempt < 3:
            raise RuntimeError("attempt %d" % attempt)
        return attempt


class Doomed(Step):
    def execute(self, **values):
        super().execute()
        raise RuntimeError("doomed")


def make_flow(doomed):
    flow = linear_flow.Flow("life")
    first = unordered_flow.Flow("first").add(*[Step("p%d" % at, provides="v%d" % at) for at in range(6)])
    again = linear_flow.Flow("again", retry.Times(5, "tries", provides="attempt"))
    again.add(Step("q0", provides="q"), Flaky("flaky", provides="attempts", requires=["attempt"]))
    last = graph_flow.Flow("last").add(Step("r0", provides="w", requires=["v0", "v1", "q"]), Step("r1", requires=["w"], provides="end"))
    flow.add(first, again, last)
    if doomed:
        flow.add(Doomed("doomed"))
    return flow


def live(doomed, hands):
    """Runs the flow in this process, or goes on with it. The status of the process: 0 done, 1 failed as it should."""
    engine = taskflow.engines.load(make_flow(doomed), engine="verified", book="book", hands=hands)
    try:
        engine.run()
    except RuntimeError as fault:
        return 1 if str(fault) == "doomed" else 3
    except exceptions.WrappedFailure:
        return 1
    return 0 if engine.storage.fetch("end") == 5 and engine.storage.fetch("attempts") == 3 else 4


def shown():
    done = subprocess.run([PROGRAM, "show", "book", "life"], stdout=subprocess.PIPE, stderr=subprocess.PIPE)
    return done.stdout.decode().splitlines() if done.returncode == 0 else []


def finished(lines):
    return {text.split(" ")[1] for text in lines if text.startswith("atom ") and text.split(" ")[2] == "SUCCESS"}


def log():
    if not os.path.exists("log"):
        return []
    with open("log") as file:
        return [tuple(line.split()) for line in file]


def put_back(lines, name, since):
    """Whether the book has the task put back, or undone, behind the entry of this number."""
    return any(text.split(" ")[3] == name and text.split(" ")[4] in ("PENDING", "REVERTING")
               for text in lines if text[:1].isdigit() and " task " in text and int(text.split(" ")[0]) > since)


def check_life(marks, doomed):
    """What is wrong with the book and the log of a life whose kills left these marks, or None."""
    lines, begun = shown(), log()
    for done, entries, at in marks:
        for word, name in begun[at:]:
            if word == "begin" and name in done and not put_back(lines, name, entries):
                return "%s had finished at entry %d, and began again" % (name, entries)
    for name in {name for _, name in begun}:
        said = sum(text.endswith(" task %s RUNNING" % name) or text.endswith(" restart %s" % name) for text in lines)
        if sum(pair == ("begin", name) for pair in begun) > said:
            return "%s began more often than the book says" % name
    state = next(text.split(" ")[2] for text in lines if text.startswith("state "))
    return None if state == ("REVERTED" if doomed else "SUCCESS") else "the flow ended " + state


def one_life(number, chance, left, longest):
    """A flow is run until it ends, and killed on the way as long as kills are left, each time within so many seconds of a begin. Gives how
    many kills there were, and what was wrong, or None."""
    doomed, hands, marks, kills = number % 3 == 2, 1 + 3 * (number % 2), [], 0
    for name in ("book", "log", "book.failures"):
        if os.path.exists(name):
            os.unlink(name)
    while True:
        child = os.fork()
        if child == 0:
            os._exit(live(doomed, hands))
        if kills < left:
            time.sleep(chance.random() * longest)
            os.kill(child, signal.SIGKILL)
        _, status = os.waitpid(child, 0)
        if os.WIFEXITED(status):
            wrong = None if os.WEXITSTATUS(status) == int(doomed) else "a process ended with %d" % os.WEXITSTATUS(status)
            return kills, wrong or check_life(marks, doomed)
        kills += 1
        time.sleep(0.005)
        lines = shown()
        marks.append((finished(lines), sum(text[:1].isdigit() for text in lines), len(log())))


def main(count, seed):
    chance, kills, lives = random.Random(seed), 0, 0
    # Most books are in memory, where a kill finds a run at more places; every fourth is on the disk.
    folders = [tempfile.mkdtemp(dir="/dev/shm" if memory and os.access("/dev/shm", os.W_OK) else None) for memory in (True, False)]
    os.chdir(folders[0])
    taskflow.engines.run(linear_flow.Flow("warm"), engine="verified")
    began = time.monotonic()
    one_life(2, chance, 0, 0)
    longest = min(0.6 * (time.monotonic() - began), 0.25)
    while kills < count:
        os.chdir(folders[lives % 4 == 3])
        more, wrong = one_life(lives, chance, count - kills, longest)
        kills, lives = kills + more, lives + 1
        if wrong:
            print("life %d of seed %d: %s (%s)" % (lives, seed, wrong, os.getcwd()))
            return 1
    os.chdir("/")
    for folder in folders:
        shutil.rmtree(folder)
    print("%d kills in %d flows" % (kills, lives))
    return 0


sys.exit(main(int(sys.argv[1]), int(sys.argv[2]) if len(sys.argv) > 2 else int(time.time())))
