"""Values, and what the built-in kinds of tasks give. A remote hand knows that too, and takes no other outcome."""

import json
import re

TEXT_LIMIT, LIST_LIMIT = 65_536, 131_072
LEAST = {"echo": 0, "concat": 0, "sum": 0, "length": 1, "pick": 2, "list": 0, "fail": 0, "fail_below": 2,
         "fail_unless": 1}
ESCAPES = {'"': '\\"', "\\": "\\\\", "\n": "\\n", "\t": "\\t"}


class Fail(Exception):
    """Fails an order: the failure's word, and its name, text or number where it has one."""


def form(value):
    """The text form of a value."""
    if type(value) is str:
        return '"%s"' % re.sub(r'[\x00-\x1f"\\\x7f]', lambda m: ESCAPES.get(m[0]) or "\\u%04x" % ord(m[0]), value)
    return "[%s]" % ",".join(map(form, value)) if type(value) is list else json.dumps(value)


def plain(value):
    """A text itself, and the text form of any other value."""
    return value if type(value) is str else form(value)


def text(value):
    """The text, where it is no longer than a text may be."""
    if len(value.encode()) > TEXT_LIMIT:
        raise Fail("too-long")
    return value


def fits_list(items):
    """Whether a list may have these items: 1,024 at most, and 131,072 bytes in the byte form."""
    sizes = (9 if type(item) is int else 5 + len(item.encode()) if type(item) is str else 1 for item in items)
    return len(items) <= 1024 and 3 + sum(sizes) <= LIST_LIMIT


def is_value(value):
    """Whether JSON is a value within the limits."""
    if type(value) is list:
        return all(type(item) is not list and is_value(item) for item in value) and fits_list(value)
    if type(value) is str:
        return len(value.encode()) <= TEXT_LIMIT
    return value is None or type(value) is bool or type(value) is int and -2**63 <= value < 2**63


def is_name(name):
    return re.match(r"[A-Za-z_][A-Za-z0-9_.-]{0,63}\Z", name)


def of_kind(name, value, kind):
    """The value, where it is of the kind; bool is no int here."""
    if type(value) is not kind:
        raise Fail("type", name)
    return value


def items_of(value):
    return value if type(value) is list else [value]


def built_in(kind, pairs):
    """What the kind gives for these pairs of a name and a value."""
    values = [value for _, value in pairs]
    if kind == "echo":
        return values[0] if values else None
    if kind == "concat":
        return text("".join(map(plain, values)))
    if kind == "fail":
        raise Fail("raised", text("".join(map(plain, values))))
    if kind == "sum":
        total = sum(of_kind(name, item, int) for name, value in pairs for item in items_of(value))
        if not -2**63 <= total < 2**63:
            raise Fail("overflow")
        return total
    if kind == "list":
        spread = [item for value in values for item in items_of(value)]
        if not fits_list(spread):
            raise Fail("too-long")
        return spread
    if kind == "length":
        return len(values[0].encode()) if type(values[0]) is str else len(of_kind(*pairs[0], list))
    if kind == "pick":
        items, place = of_kind(*pairs[0], list), of_kind(*pairs[1], int)
        if not 0 <= place < len(items):
            raise Fail("range")
        return items[place]
    if kind == "fail_below" and of_kind(*pairs[0], int) < of_kind(*pairs[1], int):
        raise Fail("raised", "%d below %d" % (values[0], values[1]))
    if kind == "fail_unless" and values[0] is not True:
        raise Fail("raised", text(plain(values[0]) + " is not true"))
    return values[0]
