"""What .ci/remote and .ci/crews share: peers and workers at the addresses of remote hands, and runs of the built program."""

import os
import select
import socket
import subprocess
import sys
import threading
import time

ROOT = os.path.dirname(os.path.dirname(os.path.abspath(__file__)))
# A word that is no option tells another program, for a trial.
GIVEN = next((os.path.realpath(word) for word in sys.argv[1:] if not word.startswith("-")), None)
PROGRAM = GIVEN or os.path.join(ROOT, "out", "taskflow")
NAME = os.path.basename(sys.argv[0])

misses = []


def miss(text):
    misses.append(text)
    print(NAME + ": " + text)


def frame(body):
    return len(body).to_bytes(4, "big") + body


def remove(*names):
    for name in names:
        if os.path.exists(name):
            os.remove(name)


def door(address):
    """A socket that waits at the address."""
    kind, where = address.split(":", 1)
    if kind == "unix":
        remove(where)
        made = socket.socket(socket.AF_UNIX)
        made.bind(where)
    else:
        made = socket.socket()
        made.setsockopt(socket.SOL_SOCKET, socket.SO_REUSEADDR, 1)
        made.bind(("127.0.0.1", int(where.split(":")[1])))
    made.listen()
    return made


class Peer:
    """What waits at an address, takes one link, and does with it as `serve` says, in a thread of its own."""

    def __init__(self, address, serve):
        self.door = door(address)
        self.serve = serve
        self.came = b""
        self.over = threading.Event()
        self.thread = threading.Thread(target=self.run)
        self.thread.start()

    def run(self):
        while not self.over.is_set():
            if select.select([self.door], [], [], 0.02)[0]:
                link, _ = self.door.accept()
                link.settimeout(60)
                try:
                    self.came = self.serve(link) or b""
                except OSError:
                    pass
                link.close()
                return

    def end(self):
        """What came over the link."""
        self.over.set()
        self.thread.join(60)
        self.door.close()
        return self.came


def all_of(link):
    """What comes until the link's end; a link that was broken off ends there."""
    came = b""
    try:
        while piece := link.recv(65536):
            came += piece
    except ConnectionResetError:
        pass
    return came


def bytes_of(text):
    """Bytes in hexadecimal, some of which stand so many times."""
    made = b""
    for piece in text.split():
        digits, _, count = piece.partition("*")
        made += bytes.fromhex(digits) * int(count or 1)
    return made


def text_of(spelled):
    """A text, or the texts of pairs as often as they stand."""
    return spelled if isinstance(spelled, str) else "".join(text * count for text, count in spelled)


def run(words, timeout=120):
    done = subprocess.run([PROGRAM, *words], stdout=subprocess.PIPE, stderr=subprocess.PIPE, stdin=subprocess.DEVNULL, timeout=timeout)
    return done.stdout.decode(), done.returncode, done.stderr.decode()


def free_port():
    with socket.socket() as probe:
        probe.bind(("127.0.0.1", 0))
        return probe.getsockname()[1]


def waits(address):
    """Waits until somebody listens at the address, without a link to it."""
    kind, where = address.split(":", 1)
    for _ in range(500):
        with open("/proc/net/" + kind) as table:
            lines = table.read().split("\n")
        if kind == "unix" and any(line.endswith(" " + where) and line.split()[3] == "00010000" for line in lines):
            return
        here = "0100007F:%04X" % int(where.split(":")[-1]) if kind == "tcp" else ""
        if kind == "tcp" and any(line.split()[1:4:2] == [here, "0A"] for line in lines[1:] if line):
            return
        time.sleep(0.02)
    raise SystemExit("remote: nobody listens at " + address)


class Worker:
    """A worker of so many sessions: the built program, or the one in Python."""

    def __init__(self, address, sessions=1, words=None):
        remove(address.removeprefix("unix:"))
        words = words or [PROGRAM, "worker", address, "--sessions", str(sessions)]
        self.process = subprocess.Popen(words, stdout=subprocess.PIPE, stderr=subprocess.DEVNULL)
        waits(address)

    def end(self):
        """What it said of its sessions, once it is over."""
        try:
            return self.process.communicate(timeout=60)[0].decode()
        except subprocess.TimeoutExpired:
            self.process.kill()
            return self.process.communicate()[0].decode() + "killed"
