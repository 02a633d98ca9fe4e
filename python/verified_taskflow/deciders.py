"""Deciders that are tests of a value, which a program can make by itself."""

_WORDS = ("equals", "below", "above")


class test:
    """A decider of a link that tests the result of the link's source: `flow.link(a, b, decider=test(below=3))`.

    Of `equals` (any value), `below` and `above` (numbers), those that are given must all hold. A result that can't be compared
    with the number doesn't hold. `not_` turns the answer round. Raises TypeError where none is given, or another word."""

    def __init__(self, not_=False, **wanted):
        if not wanted or not set(wanted) <= set(_WORDS):
            raise TypeError("a test has one or more of %s" % ", ".join(_WORDS))
        self.wanted = wanted
        self.negated = bool(not_)
        self.source = None

    def holds(self, result):
        """Whether the result (any value) passes."""
        try:
            good = (("equals" not in self.wanted or _is_same(result, self.wanted["equals"]))
                    and ("below" not in self.wanted or result < self.wanted["below"])
                    and ("above" not in self.wanted or result > self.wanted["above"]))
        except TypeError:
            good = False
        return bool(good) != self.negated

    def __call__(self, history):
        """Asked as TaskFlow asks: of the results of all sources (a dict by names), each must pass."""
        return all(self.holds(result) for result in history.values())

    def __repr__(self):
        words = ", ".join("%s=%r" % pair for pair in sorted(self.wanted.items()))
        return "test(%s%s)" % ("not_=True, " if self.negated else "", words)


def _is_same(result, wanted):
    return type(result) is type(wanted) and result == wanted
