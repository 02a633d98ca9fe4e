"""What the examples share: they tell each transition, run in processes of their own, and end in the middle where they are told to."""

import os
import signal
import sys

import taskflow.engines
import verified_taskflow
from taskflow import exceptions

assert verified_taskflow.__all__


def note(*words):
    """Says what a task does in the world."""
    print("       ", *words, flush=True)


def die_once(name):
    """Ends this process as a power failure would, the first time that it is called with this name."""
    if not os.path.exists(name):
        os.close(os.open(name, os.O_CREAT))
        os.kill(os.getpid(), signal.SIGKILL)


def tell(kind):
    def receive(state, details):
        result = details.get("result")
        told = [] if result is None else ["-> %s" % (result,)]
        print(kind, details[kind + "_name"], state, *told, flush=True)
    return receive


def run(flow, **options):
    """Runs a flow, or goes on with it, and tells each transition and how it ended."""
    engine = taskflow.engines.load(flow, engine="verified", **options)
    engine.notifier.register("*", tell("flow"))
    engine.atom_notifier.register("*", tell("task"), details_filter=lambda details: "task_name" in details)
    engine.atom_notifier.register("*", tell("retry"), details_filter=lambda details: "retry_name" in details)
    try:
        engine.run()
    except exceptions.WrappedFailure as failures:
        print("raised", ", ".join(sorted(str(fault) for fault in failures)))
    except Exception as fault:
        print("raised %s: %s" % (type(fault).__name__, fault))
    return engine


def in_a_process(heading, function, *arguments):
    """Calls a function in a process of its own, and says how that ended."""
    print("\n%s" % heading, flush=True)
    child = os.fork()
    if child == 0:
        function(*arguments)
        sys.stdout.flush()
        os._exit(0)
    _, status = os.waitpid(child, 0)
    if os.WIFSIGNALED(status):
        print("killed by signal", os.WTERMSIG(status), flush=True)
