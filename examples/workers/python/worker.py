#!/usr/bin/env python3
"""A worker in Python: it performs commands by functions of its own (docs/PROTOCOL.md has the messages).

    worker.py unix:PATH|tcp:127.0.0.1:PORT [SESSIONS]

TASKS leads from the first word of a command to a task: `execute` does the work and gives a text, and `revert` undoes
it. Both take the command's other words, and its arguments by name. In a flow file the two are `run` and `revert`:

    run = ["volume", "data", "log"]
    revert = ["volume", "data", "log"]

What a task raises fails it: Fail("exit", 3) as a program that ended with status 3, anything else with status 1."""

import json
import os
import socket
import sys

from built_ins import LEAST, Fail, built_in, is_name, is_value, plain, text

FRAME_LIMIT = 67_108_864


class Echo:
    """Gives its words and arguments; there is nothing to undo."""

    def execute(self, words, args):
        return " ".join(words + [plain(value) for value in args.values()])

    def revert(self, words, args):
        pass


class Volume:
    """Makes a folder for each word, and takes it away."""

    def execute(self, words, args):
        for word in words:
            os.makedirs(word, exist_ok=True)
        return "\n".join(words)

    def revert(self, words, args):
        for word in reversed(words):
            if os.path.isdir(word):
                os.rmdir(word)


TASKS = {"echo": Echo(), "volume": Volume()}


def command(action, words, pairs):
    """What a command gives: a text, or nothing where it undoes."""
    for _, value in pairs:
        text(plain(value))
    if words[0] not in TASKS:
        raise Fail("spawn")
    try:
        gave = getattr(TASKS[words[0]], action)(words[1:], dict(pairs))
    except Fail:
        raise
    except Exception as fault:
        print("worker: %s: %r" % (words[0], fault), file=sys.stderr)
        raise Fail("exit", 1)
    if action == "revert":
        return None
    try:
        return text(str(gave))
    except UnicodeError:
        raise Fail("not-text")


def perform(order):
    """The outcome of an order, as members of its message."""
    kind, args = order["kind"], order["args"]
    try:
        result = command(order["action"], order["words"], args) if kind == "command" else built_in(kind, args)
        return {"result": result, "state": "SUCCESS"}
    except Fail as fault:
        return {"failure": list(fault.args), "state": "FAILURE"}


def read_request(body):
    """The request that a frame spells. Where it raises anything, the frame spells none."""
    order = json.loads(body.decode(), parse_int=lambda digits: float(digits) if digits == "-0" else int(digits))
    words, args, is_command = order["words"], order["args"], order["kind"] == "command"
    good = set(order) == {"action", "args", "id", "kind", "words"} and type(order["id"]) is int
    good = good and 0 <= order["id"] < 2**63
    good = good and (order["action"] == "execute" or order["action"] == "revert" and is_command)
    good = good and type(words) is list and len(words) <= 64 and (len(words) > 0) == is_command
    good = good and all(type(word) is str and is_value(word) for word in words)
    good = good and type(args) is list and (0 if is_command else LEAST[order["kind"]]) <= len(args) <= 64
    good = good and all(type(pair) is list and is_name(pair[0]) and is_value(pair[1]) for pair in args)
    if not good or len(dict(args)) != len(args):
        raise ValueError("no request")
    return order


def take(link, count):
    """So many bytes, or fewer where the link ends."""
    came = bytearray()
    while len(came) < count and (piece := link.recv(min(count - len(came), 65_536))):
        came += piece
    return bytes(came)


def say(link, message):
    body = json.dumps(message, ensure_ascii=False, separators=(",", ":"), sort_keys=True).encode()
    link.sendall(len(body).to_bytes(4, "big") + body)


def serve(link):
    """Answers the requests that come, in order, and tells how the session ended."""
    place = 0
    while len(front := take(link, 4)) == 4:
        length = int.from_bytes(front, "big")
        if not 0 < length <= FRAME_LIMIT:
            return "bad %d" % place
        body = take(link, length)
        if len(body) < length:
            return "lost"
        try:
            order = read_request(body)
        except Exception:
            return "bad %d" % place
        say(link, {"id": order["id"], "state": "RUNNING"})
        say(link, dict(perform(order), id=order["id"]))
        place += 4 + length
    return "lost" if front else "ended"


def main(address, sessions="1"):
    kind, _, where = address.partition(":")
    door = socket.socket(socket.AF_UNIX if kind == "unix" else socket.AF_INET)
    door.bind(where if kind == "unix" else (where.split(":")[0], int(where.split(":")[1])))
    door.listen()
    for number in range(1, int(sessions) + 1):
        link, _ = door.accept()
        if kind == "tcp":
            link.setsockopt(socket.IPPROTO_TCP, socket.TCP_NODELAY, 1)
        try:
            end = serve(link)
        except OSError:
            end = "lost"
        link.close()
        print("session %d %s" % (number, end), flush=True)


if __name__ == "__main__":
    main(*sys.argv[1:])
