"""Values as texts: what a book keeps of a result or an argument.

A text is a mark, a blank and what the mark says: `json [VALUE]`, `pickle [BASE64]` or `object [NUMBER]`. Where the value gives
several symbols, a second item leads from each symbol to its place in the value: `json [[1, 2], {"a": 0, "b": 1}]`.

JSON has no tuples, sets, bytes or tables with other keys than texts. They are tables with the key `!`, which names the type."""

import base64
import itertools
import json
import pickle

TEXT_LIMIT = 65_536
"""The most bytes of UTF-8 that a text in a book may have."""

SHORT = 256
"""The most characters of a str that is written as JSON even where values stay in this process."""

MARK = "!"
_PLAIN = frozenset((type(None), bool, int, float, str))
_SMALL = frozenset((type(None), bool, float))
_GROUPS = {"tuple": tuple, "set": set, "frozenset": frozenset}
_decoder = json.JSONDecoder()


def is_short(value):
    """Whether a value is short and can't change, so that a text of it is as good as itself."""
    kind = type(value)
    return kind in _SMALL or kind is int and value.bit_length() <= 64 or kind is str and len(value) <= SHORT


class NotKept(TypeError):
    """A value of which a book can keep no text: it says where in the value, and of which type."""


def pack(value, place="the value"):
    """The value as JSON has it (str, int, float, bool, None, list, dict). Raises NotKept where it has a part that is none."""
    kind = type(value)
    if kind in _PLAIN:
        return value
    if kind is list:
        return [pack(item, "%s[%d]" % (place, at)) for at, item in enumerate(value)]
    if kind is dict:
        return _pack_table(value, place)
    if kind.__name__ in _GROUPS and _GROUPS[kind.__name__] is kind:
        return {MARK: kind.__name__, "items": [pack(item, place) for item in value]}
    if kind is bytes:
        return {MARK: "bytes", "items": base64.b64encode(value).decode()}
    raise NotKept("%s is of the type %s.%s, which is no JSON" % (place, kind.__module__, kind.__qualname__))


def _pack_table(table, place):
    if MARK not in table and all(type(key) is str for key in table):
        return {key: pack(item, "%s[%r]" % (place, key)) for key, item in table.items()}
    pairs = [[pack(key, place), pack(item, "%s[%r]" % (place, key))] for key, item in table.items()]
    return {MARK: "dict", "items": pairs}


def unpack(packed):
    """The value of what `pack` gave."""
    kind = type(packed)
    if kind is list:
        return [unpack(item) for item in packed]
    if kind is not dict:
        return packed
    mark = packed.get(MARK)
    if mark is None:
        return {key: unpack(item) for key, item in packed.items()}
    if mark == "dict":
        return {unpack(key): unpack(item) for key, item in packed["items"]}
    if mark == "bytes":
        return base64.b64decode(packed["items"])
    return _GROUPS[mark](unpack(item) for item in packed["items"])


def dump(packed):
    """JSON on one line. Texts that UTF-8 can't have, as a lone half of a pair, are escaped."""
    text = json.dumps(packed, ensure_ascii=False, separators=(",", ":")).replace("\x7f", "\\u007f")
    try:
        text.encode()
    except UnicodeEncodeError:
        text = json.dumps(packed, separators=(",", ":"))
    return text


def _marked(mark, packed, places):
    return "%s %s" % (mark, dump([packed, places] if places else [packed]))


def _pickle(value, place):
    """The value's pickle (a str). Raises NotKept where it has none: a value's own code may raise anything."""
    try:
        return base64.b64encode(pickle.dumps(value)).decode()
    except Exception as fault:
        raise NotKept("%s can't be pickled: %s" % (place, fault)) from fault


class Texts:
    """Makes texts of an engine's values, and values of its texts.

    `kept` tells whether the texts are for a book that outlives the process, or for another process: if they aren't, a value that may
    change or be long stays in this object, and its text is its number, so that who takes it gets the value itself. `pickled` tells whether
    a value that is no JSON may be pickled, and a pickled one read. `limit` is the most bytes of a text that is kept."""

    def __init__(self, kept, pickled, limit=TEXT_LIMIT):
        self._kept = kept
        self._pickled = pickled
        self._limit = limit
        self._numbers = itertools.count()
        self._objects = {}
        self._lasting = {}
        self._owned = {}

    def text_of(self, value, places=None, place="the value", owner=None):
        """The text of a value, whose symbols have these places (a dict from symbol to index or key), if any. Where it is the result of an
        atom, that is the `owner` (its name): the owner's result before is let go.

        Raises NotKept where it must be kept, and is no JSON and can't or may not be pickled, or has a text above the limit."""
        if value is None and not places:
            return "json [null]"
        if not self._kept and not is_short(value):
            return _marked("object", self._number_of(value, owner), places)
        try:
            form, text = "JSON", _marked("json", pack(value, place), places)
        except (NotKept, RecursionError, ValueError) as fault:
            if not self._pickled:
                raise fault if type(fault) is NotKept else NotKept("%s is no JSON: %s" % (place, fault))
            form, text = "a pickle", _marked("pickle", _pickle(value, place), places)
        if len(text) * 4 > self._limit and len(text.encode()) > self._limit:
            raise NotKept("%s has %d bytes as %s, above %d" % (place, len(text.encode()), form, self._limit))
        return text

    def _number_of(self, value, owner):
        """The number of a value that stays here. One without an owner stays as long as this object, and has one number alone: a flow
        file may be written again while the program has an earlier one."""
        number = self._lasting.get(id(value)) if owner is None else None
        if number is None:
            number = next(self._numbers)
            self._objects[number] = value
            if owner is None:
                self._lasting[id(value)] = number
        if owner is not None:
            self.let_go(owner)
            self._owned[owner] = number
        return number

    def let_go(self, owner):
        """Forgets the result of an atom (its name), which nobody takes any more."""
        self._objects.pop(self._owned.pop(owner, None), None)

    def value_of(self, text):
        """The value of a text, and the places of its symbols (a dict, or None). Raises ValueError where it is none of ours, and where
        it is pickled though that wasn't asked for: who sends a pickle has code of its own run."""
        mark, _, body = text.partition(" ")
        if mark not in ("json", "pickle", "object"):
            raise ValueError("no text of a value: %.60r" % text)
        items = _decoder.decode(body)
        places = items[1] if len(items) > 1 else None
        if mark == "json":
            return unpack(items[0]), places
        if mark == "pickle":
            if not self._pickled:
                raise ValueError("a pickled value is read with pickle=True (of a worker, --pickle) alone: %.60r" % text)
            return pickle.loads(base64.b64decode(items[0])), places
        if items[0] not in self._objects:
            raise ValueError("the object %d was of a process that is gone" % items[0])
        return self._objects[items[0]], places

    def item_of(self, given, symbol):
        """The value of a symbol in what a program gave for it: a text of ours, or an integer or None of a retry controller.

        Raises LookupError where the value has nothing at the symbol's place."""
        if type(given) is not str:
            return given
        value, places = self.value_of(given)
        if not places or symbol not in places:
            return value
        try:
            return value[places[symbol]]
        except (IndexError, KeyError, TypeError):
            raise LookupError("the result that gives %r has nothing at %r" % (symbol, places[symbol])) from None


def places_of(save_as):
    """From each symbol of an atom's `save_as` to its index or key; None where the one symbol means the whole result."""
    return dict(save_as) if any(index is not None for index in save_as.values()) else None
