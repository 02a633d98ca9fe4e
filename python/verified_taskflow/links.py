"""Sockets at addresses (`unix:PATH`, `tcp:127.0.0.1:PORT`), and frames: a length in four bytes, the greatest first, and JSON."""

import contextlib
import json
import os
import socket
import stat

LIMIT = 67_108_864
"""The most bytes of a frame's JSON."""

TEXT_LIMIT = 8_388_608
"""The most bytes of a value's text in a frame."""


class TooLong(Exception):
    """A message that is longer than a frame may be."""


def is_address(given):
    """Whether something is an address: a str, with a path, or with a host and a port of 1 to 65,535."""
    if not isinstance(given, str):
        return False
    kind, _, where = given.partition(":")
    host, _, port = where.rpartition(":")
    return (kind == "unix" and bool(where)
            or kind == "tcp" and bool(host) and port.isascii() and port.isdigit() and 0 < int(port) < 65_536)


def dial(address):
    """A link to who listens at an address. Raises OSError where nobody does, ValueError where it is no address."""
    kind, _, where = address.partition(":")
    if kind == "unix":
        link = socket.socket(socket.AF_UNIX)
        try:
            link.connect(where)
        except OSError:
            link.close()
            raise
        return link
    if kind != "tcp":
        raise ValueError("no address: %r" % address)
    host, _, port = where.rpartition(":")
    link = socket.create_connection((host, int(port)))
    link.setsockopt(socket.IPPROTO_TCP, socket.TCP_NODELAY, 1)
    return link


def listen(address):
    """A socket that listens at an address; that of a path has the mode 0600, and one that a killed process left there is removed. Raises
    OSError where it can't."""
    kind, _, where = address.partition(":")
    if kind == "unix":
        if _is_left(where):
            os.unlink(where)
        door = socket.socket(socket.AF_UNIX)
        door.bind(where)
        os.chmod(where, 0o600)
    else:
        host, _, port = where.rpartition(":")
        door = socket.create_server((host, int(port)))
    door.listen()
    return door


def _is_left(path):
    """Whether a path is a socket at which nobody listens any more."""
    try:
        if not stat.S_ISSOCK(os.stat(path).st_mode):
            return False
        dial("unix:" + path).close()
    except ConnectionRefusedError:
        return True
    except OSError:
        pass
    return False


def leave(address):
    """Removes the socket of an address, where it has a path."""
    kind, _, where = address.partition(":")
    if kind == "unix":
        with contextlib.suppress(FileNotFoundError):
            os.unlink(where)


def say(link, message):
    """Sends a message (a dict). Raises TooLong, and sends nothing, where it is longer than a frame may be."""
    body = json.dumps(message, ensure_ascii=False, separators=(",", ":"), sort_keys=True).encode()
    if len(body) > LIMIT:
        raise TooLong("a message of %d bytes, above %d" % (len(body), LIMIT))
    link.sendall(len(body).to_bytes(4, "big") + body)


def hear(link):
    """The next message, or None at the link's end between two. Raises EOFError inside one, ValueError for what is none."""
    front = _take(link, 4)
    if not front:
        return None
    length = int.from_bytes(front, "big")
    if len(front) == 4 and not 0 < length <= LIMIT:
        raise ValueError("a frame of %d bytes" % length)
    body = _take(link, length) if len(front) == 4 else b""
    if len(body) < length or len(front) < 4:
        raise EOFError("the link ended inside a frame")
    return json.loads(body)


def _take(link, count):
    came = bytearray()
    while len(came) < count and (piece := link.recv(min(count - len(came), 65_536))):
        came += piece
    return bytes(came)
