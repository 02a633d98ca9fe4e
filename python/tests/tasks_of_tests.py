"""Task classes that the tests run, here and in workers."""

import os

from taskflow import task


class Give(task.Task):
    """Gives what it is made with."""

    def __init__(self, name, gives=None, **kwargs):
        super().__init__(name, **kwargs)
        self.gives = gives

    def execute(self):
        return self.gives


class Note(task.Task):
    """Keeps what it is called with."""

    def __init__(self, name, **kwargs):
        super().__init__(name, **kwargs)
        self.calls = []

    def execute(self, **values):
        self.calls.append(("execute", values))
        return values

    def revert(self, result, flow_failures, **values):
        self.calls.append(("revert", values, result, {name: str(fault) for name, fault in flow_failures.items()}))
        return "undone"


class Fail(task.Task):
    def execute(self, **values):
        raise KeyError("the disk is full")


class FailTwice(Fail):
    """Fails where it is undone, too."""

    def revert(self, **values):
        raise KeyError("the disk is still full")


class Die(task.Task):
    """Ends its process, behind a line in the file `path`."""

    def execute(self, path):
        with open(path, "a") as file:
            file.write("begun\n")
        os._exit(9)


class Add(task.Task):
    def execute(self, one, other=1):
        return one + other

    def revert(self, one, result, flow_failures, other=1):
        with open("undone", "a") as file:
            file.write("%s %s %s %s\n" % (one, other, result, sorted(map(str, flow_failures.values()))))


class Sum(task.Task):
    def execute(self, **values):
        return sum(values.values())


class Same(task.Task):
    """Gives what it takes."""

    def execute(self, one):
        return one


class Odd(task.Task):
    """Gives what is no JSON."""

    def execute(self):
        return object()
