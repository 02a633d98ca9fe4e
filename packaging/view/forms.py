"""The forms in which values, plans, entries and commands stand in a body, read from their bytes."""
import re

from plans import Flow, Link, Plan, Retry, Task

TASK_KINDS = "echo concat sum length pick list fail fail_below fail_unless command".split()
RETRY_KINDS = "always_revert always_revert_all times for_each parameterized_for_each".split()
FLOW_KINDS = "linear unordered graph".split()
DEPTHS = "ALL FLOW NEIGHBORS ATOM".split()
ATOM_STATES = "PENDING RUNNING SUCCESS FAILURE REVERTING REVERTED REVERT_FAILURE IGNORE RETRYING".split()
FLOW_STATES = "PENDING RUNNING SUCCESS FAILURE REVERTED SUSPENDING SUSPENDED RESUMING".split()
RESOLUTIONS = "RETRY REVERT REVERT_ALL".split()
FAILURES = "raised type overflow range too-long lookup exit spawn not-text lost bad-reply exhausted".split()
PRIORITIES = "VERY_HIGH HIGH NORMAL LOW VERY_LOW".split()
NAME = re.compile(r"[A-Za-z_][A-Za-z0-9_.-]{0,63}")
JOB_ACTIONS = {2: "claim", 3: "abandon", 4: "consume", 5: "trash"}


class NoForm(Exception):
    """The bytes are no form of what was looked for."""


class Reader:
    def __init__(self, data):
        self.data, self.place = data, 0

    def take(self, count):
        if self.place + count > len(self.data):
            raise NoForm
        self.place += count
        return self.data[self.place - count : self.place]

    def number(self, size, signed=False):
        return int.from_bytes(self.take(size), "big", signed=signed)

    def choice(self, words):
        number = self.number(1)
        if number >= len(words):
            raise NoForm
        return words[number]

    def truth(self):
        return self.choice([False, True])

    def utf8(self, length):
        try:
            return self.take(length).decode()
        except UnicodeDecodeError as wrong:
            raise NoForm from wrong

    def name(self):
        found = self.utf8(self.number(1))
        if not NAME.fullmatch(found):
            raise NoForm
        return found

    def text(self):
        return self.utf8(self.number(4))

    def many(self, one):
        return [one() for _ in range(self.number(2))]

    def end(self):
        if self.place != len(self.data):
            raise NoForm


def value(reader):
    """A value, in the text form in which the program prints it."""
    tag = reader.number(1)
    if tag == 5:
        return f"[{','.join(reader.many(lambda: scalar(reader, reader.number(1))))}]"
    return scalar(reader, tag)


def scalar(reader, tag):
    if tag < 3:
        return ["null", "false", "true"][tag]
    if tag == 3:
        return str(reader.number(8, signed=True))
    if tag == 4:
        return quoted(reader.text())
    raise NoForm


PLAIN = {'"': '\\"', "\\": "\\\\", "\n": "\\n", "\t": "\\t"}


def quoted(text):
    shown = (PLAIN.get(it) or (f"\\u00{ord(it):02x}" if ord(it) < 32 or ord(it) == 127 else it) for it in text)
    return f'"{"".join(shown)}"'


def failure(reader):
    word = reader.choice(FAILURES)
    if word == "raised":
        return f"raised {quoted(reader.text())}"
    if word in ("type", "lookup"):
        return f"{word} {reader.name()}"
    if word == "exit":
        return f"exit {reader.number(4, signed=True)}"
    return f"{word} {reader.number(4)}" if word == "bad-reply" else word


def pairs(reader):
    return reader.many(lambda: (reader.name(), reader.name()))


def binds(reader):
    return reader.many(lambda: (reader.name(), value(reader)))


def provides(reader):
    tag = reader.number(1)
    if tag > 2:
        raise NoForm
    return [[], [reader.name()], []][tag] if tag == 1 else reader.many(reader.name) if tag == 2 else []


def undo(reader):
    """What undoes a task: nothing, a failure, or the words of a program."""
    tag = reader.number(1)
    if tag > 2:
        raise NoForm
    return reader.many(reader.text) if tag == 2 else ["ok", "fail"][tag]


def task(reader):
    found = Task(reader.name(), reader.choice(TASK_KINDS))
    found.words = reader.many(reader.text)
    found.arguments, found.injects, found.provides = pairs(reader), dict(binds(reader)), provides(reader)
    found.priority, found.undo = reader.number(4, signed=True), undo(reader)
    return found


def retry(reader):
    found = Retry(reader.name(), reader.choice(RETRY_KINDS))
    if found.kind == "times":
        found.tries = f"{reader.number(2)} attempts"
    elif found.kind == "for_each":
        found.tries = value(reader)
    if found.kind in RETRY_KINDS[2:]:
        found.reverts_all = reader.truth()
    found.arguments, found.injects, found.provides = pairs(reader), dict(binds(reader)), provides(reader)
    return found


def test(reader, depth=0):
    """The test of a decider, in words."""
    tag = reader.number(1)
    if depth > 16 or tag > 5:
        raise NoForm
    if tag == 0:
        return f"{reader.name()} is {value(reader)}"
    if tag < 3:
        return f"{reader.name()} {['below', 'above'][tag - 1]} {reader.number(8, signed=True)}"
    if tag == 3:
        return f"not ({test(reader, depth + 1)})"
    return f"{['all', 'any'][tag - 4]} of ({'; '.join(reader.many(lambda: test(reader, depth + 1)))})"


def link(reader):
    found = Link(reader.name(), reader.name())
    if reader.truth():
        found.depth = reader.choice(DEPTHS)
        found.test = test(reader)
    return found


def item(reader, depth):
    return task(reader) if reader.choice(["task", "flow"]) == "task" else flow(reader, depth + 1)


def flow(reader, depth=1):
    if depth > 16:
        raise NoForm
    found = Flow(reader.name(), reader.choice(FLOW_KINDS))
    found.retry = retry(reader) if reader.truth() else None
    found.items = reader.many(lambda: item(reader, depth))
    found.links = reader.many(lambda: link(reader))
    return found


def plan(body):
    reader = Reader(body)
    found = Plan(flow(reader), dict(binds(reader)), reader.truth())
    reader.end()
    return found


def entry(body):
    """An entry: its hand, and what it says of which atom or flow."""
    reader = Reader(body)
    hand, tag = reader.number(1), reader.number(1)
    if hand > 63:
        raise NoForm
    if tag == 1:
        number, state = reader.number(2), reader.choice(ATOM_STATES)
        carried = value(reader) if state == "SUCCESS" else failure(reader) if state in ("FAILURE", "REVERT_FAILURE") else ""
        found = ("atom", number, state, carried)
    elif tag == 2:
        found = ("flow", 0, reader.choice(FLOW_STATES), "")
    elif tag == 3:
        found = ("resolve", reader.number(2), reader.choice(RESOLUTIONS), "")
    elif tag == 4:
        found = ("restart", reader.number(2), "", "")
    else:
        raise NoForm
    reader.end()
    return (hand, *found)


def command(body):
    """A command of a board: what is done, and with which job, or which job is posted."""
    reader = Reader(body)
    tag = reader.number(1)
    if tag == 1:
        found = ("post", reader.name(), reader.choice(PRIORITIES), value(reader))
    elif tag in JOB_ACTIONS:
        found = (JOB_ACTIONS[tag], reader.number(8), reader.name(), "")
    else:
        raise NoForm
    reader.end()
    return found
