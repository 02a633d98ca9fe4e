"""Names as a flow file has them: 1 to 64 bytes of ASCII, a letter or `_` first, then letters, digits, `_`, `-` and `.`."""

import hashlib
import re

_NAME = re.compile(r"[A-Za-z_][A-Za-z0-9_.-]{0,63}\Z")


def is_name(text):
    """Whether a flow file may have this text (str) as a name."""
    return _NAME.match(text) is not None


def name_for(text):
    """The name of a flow file that stands for any text: the text itself where it is one, and else what is left of its end with a
    digest behind, which is the same in each process."""
    if is_name(text):
        return text
    digest = hashlib.sha256(text.encode("utf-8", "surrogatepass")).hexdigest()[:12]
    left = re.sub(r"[^A-Za-z0-9_.-]", "-", text)[-48:]
    return "_%s-%s" % (left, digest)


class Names:
    """Gives each thing of a flow file a name of its own."""

    def __init__(self):
        self._taken = set()

    def take(self, text):
        """A name for the text that nothing has yet: `name_for` it, with a number behind where that is taken."""
        name = name_for(text)
        number = 2
        while name in self._taken:
            tail = "-%d" % number
            name = name_for(text)[:64 - len(tail)] + tail
            number += 1
        self._taken.add(name)
        return name
