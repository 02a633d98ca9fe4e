"""What is refused, and why."""

from taskflow import exceptions


class Unsupported(exceptions.CompilationFailure):
    """A flow that has no form in a flow file: the message has the name of the atom or flow (`name`, str) and the reason."""

    def __init__(self, name, reason):
        super().__init__("%s: %s" % (name, reason))
        self.name = name
        self.reason = reason


class Broken(exceptions.ExecutionFailure):
    """The program ended otherwise than a run ends: the message has its status and what it said."""
