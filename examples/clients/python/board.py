#!/usr/bin/env python3
"""A client of a taskflow board service: it asks one thing and prints what it is told.
    board.py ADDRESS post NAME [PRIORITY [DETAILS]]     DETAILS is JSON: null, true, false, a whole number, a string or an array of these
    board.py ADDRESS claim ID OWNER                     likewise abandon, consume and trash
    board.py ADDRESS owner ID
    board.py ADDRESS list
ADDRESS is unix:PATH or tcp:127.0.0.1:PORT. The exit status is 0, 15 where the request is refused, 2 for wrong words, and 1 where the
service is lost.
"""
import json
import socket
import struct
import sys

FRAME_LIMIT = 67_108_864
BY_OWNER = ("claim", "abandon", "consume", "trash")


class Lost(Exception):
    """The link ended before the reply came, or what came is no reply."""


class Board:
    """A session with a board service. Each request is answered from the board as it stands then."""

    def __init__(self, address):
        kind, _, rest = address.partition(":")
        if kind == "unix":
            self.link = socket.socket(socket.AF_UNIX, socket.SOCK_STREAM)
            self.link.connect(rest)
            return
        host, _, port = rest.rpartition(":")
        self.link = socket.create_connection((host, int(port)))
        self.link.setsockopt(socket.IPPROTO_TCP, socket.TCP_NODELAY, 1)

    def ask(self, request):
        """Returns the reply: an object with the one key "lines" or "refused"."""
        message = json.dumps(request, separators=(",", ":"), ensure_ascii=False).encode()
        self.link.sendall(struct.pack(">I", len(message)) + message)
        (length,) = struct.unpack(">I", self._bytes(4))
        if not 1 <= length <= FRAME_LIMIT:
            raise Lost(f"a frame of {length} bytes")
        return json.loads(self._bytes(length))

    def post(self, name, priority="NORMAL", details=None):
        return self.ask({"call": "post", "details": details, "name": name, "priority": priority})

    def act(self, call, job, owner):
        """Claims, abandons, consumes or trashes a job."""
        return self.ask({"call": call, "id": job, "owner": owner})

    def owner(self, job):
        return self.ask({"call": "owner", "id": job})

    def list(self):
        return self.ask({"call": "list"})

    def _bytes(self, count):
        found = bytearray()
        while len(found) < count:
            piece = self.link.recv(count - len(found))
            if not piece:
                raise Lost("the link ended")
            found += piece
        return bytes(found)


def asked(board, words):
    """Returns the reply to what the words ask, or None where they ask nothing."""
    match words:
        case ["post", name, *more] if len(more) < 3:
            return board.post(name, *more[:1], details=json.loads(more[1]) if more[1:] else None)
        case [call, job, owner] if call in BY_OWNER:
            return board.act(call, job, owner)
        case ["owner", job]:
            return board.owner(job)
        case ["list"]:
            return board.list()
    return None


def main(words):
    try:
        reply = asked(Board(words[0]), words[1:]) if words[1:] else None
    except (Lost, OSError) as why:
        print(f"board: lost: {why}", file=sys.stderr)
        return 1
    if reply is None:
        print(__doc__, file=sys.stderr)
        return 2
    if "refused" in reply:
        print(f"board: {reply['refused']}", file=sys.stderr)
        return 15
    print("".join(f"{line}\n" for line in reply["lines"]), end="")
    return 0


if __name__ == "__main__":
    sys.exit(main(sys.argv[1:]))
