"""Runs TaskFlow's own unit tests with this engine in the place of theirs: `taskflow_tests.py MODULE.CLASS`. Says a line for each test:
`ok` or `not`, its name, and the last line of why."""

import importlib
import io
import sys
import unittest

import taskflow.engines
from taskflow.engines import helpers

_KINDS = ("default", "serial", "parallel")
_load = taskflow.engines.load


def load(flow, *args, engine="default", **kwargs):
    """TaskFlow's `load`, where each kind that performs in this process is ours."""
    return _load(flow, *args, engine="verified" if engine in _KINDS else engine, **kwargs)


class Result(unittest.TextTestResult):
    def addSuccess(self, test):
        super().addSuccess(test)
        say("ok", test, "")

    def addSkip(self, test, reason):
        super().addSkip(test, reason)
        say("not", test, "skipped: " + reason)

    def addFailure(self, test, fault):
        super().addFailure(test, fault)
        say("not", test, self.failures[-1][1])

    def addError(self, test, fault):
        super().addError(test, fault)
        say("not", test, self.errors[-1][1])


def say(word, test, why):
    lines = [line.strip() for line in why.splitlines() if line.strip() and line.strip() != "}}}"]
    print("%s %s %s" % (word, test.id().replace("taskflow.tests.unit.", ""), lines[-1] if lines else ""), flush=True)


def main(name):
    module, group = name.split(".")
    taskflow.engines.load = helpers.load = load
    suite = unittest.defaultTestLoader.loadTestsFromTestCase(
        getattr(importlib.import_module("taskflow.tests.unit." + module), group))
    unittest.TextTestRunner(io.StringIO(), resultclass=Result).run(suite)


main(sys.argv[1])
