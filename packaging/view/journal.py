"""Reads a journal, which is what a book and a board are: a file's gate, a title, and bodies behind gates of their own.

The whole file is read at once and never written, so a page is of one moment, beside a program that writes too."""

OPEN = 0xA5
TITLE_END = 17
SIZE_LIMIT = 67_108_864
BOOK, JOBS = b"TASKFLOW BOOK 2\n", b"TASKFLOW JOBS 1\n"
TITLES = {BOOK: ("book", 1_048_577), b"TASKFLOW BOOK 1\n": ("old book", 1_048_576), JOBS: ("board", 1_048_576)}


class NotAJournal(Exception):
    """Says where a file shows that it is none, as the program says it."""

    def __init__(self, data, offset):
        shown = f"byte {data[offset]}" if offset < len(data) else "end"
        super().__init__(f"not a book: offset {offset}, {shown}")


def is_unborn(data):
    """Nothing was kept in the file yet: at most what a creation of a journal leaves before it is done stands in it, or a book of
    several flows that isn't published, whatever stands behind its title."""
    if len(data) <= 1 or data[0] == 0 and len(data) <= TITLE_END + 1:
        return True
    if data[0] == OPEN:
        return False
    return data[1:TITLE_END] == BOOK or data[1:TITLE_END] in TITLES and data[TITLE_END:] == b"\0"


def title_of(data):
    """Which kind of journal it is, and the greatest length of a body."""
    if data[0] != OPEN:
        raise NotAJournal(data, 0)
    if data[1:TITLE_END] in TITLES:
        return TITLES[data[1:TITLE_END]]
    wanted = JOBS if data[10:11] == b"J" else BOOK
    raise NotAJournal(data, next((at for at in range(1, TITLE_END) if data[at : at + 1] != wanted[at - 1 : at]), TITLE_END))


def bodies_of(data, limit):
    """The bodies behind open gates, up to the first gate that isn't open, each with its place in the file."""
    gate = TITLE_END
    if gate >= len(data):
        raise NotAJournal(data, len(data))
    while data[gate] == OPEN:
        if gate + 5 > len(data):
            raise NotAJournal(data, len(data))
        length = int.from_bytes(data[gate + 1 : gate + 5], "big")
        after = gate + 5 + length
        if not 1 <= length <= limit or after + 1 > SIZE_LIMIT:
            raise NotAJournal(data, gate + 1)
        if after >= len(data):
            raise NotAJournal(data, len(data))
        yield gate + 5, data[gate + 5 : after]
        gate = after


def read(data):
    """The kind of a journal and its bodies; an unborn file is a journal of an unknown kind without a body."""
    if is_unborn(data):
        return "unborn", []
    kind, limit = title_of(data)
    return kind, list(bodies_of(data, limit))
