"""What the tests have in common: a folder of their own, and the engine."""

import os
import pathlib
import subprocess
import tempfile
import unittest

import taskflow.engines
import verified_taskflow
from taskflow.patterns import linear_flow

HERE = os.path.dirname(os.path.abspath(__file__))
SITE = str(pathlib.Path(verified_taskflow.__file__).resolve().parent.parent)
PROGRAM = os.environ["TASKFLOW_PROGRAM"]


class Case(unittest.TestCase):
    def setUp(self):
        self.folder = tempfile.TemporaryDirectory()
        self.addCleanup(self.folder.cleanup)
        before = os.getcwd()
        os.chdir(self.folder.name)
        self.addCleanup(os.chdir, before)

    def load(self, flow, **kwargs):
        return taskflow.engines.load(flow, engine="verified", **kwargs)

    def shown(self, book, *words):
        done = subprocess.run([PROGRAM, *(words or ("show",)), book], stdout=subprocess.PIPE)
        return done.stdout.decode().splitlines()


def line(name, *items, **kwargs):
    return linear_flow.Flow(name, **kwargs).add(*items)
