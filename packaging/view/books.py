"""What a book holds: flows with their plans and histories, as its bodies tell them."""
import dataclasses

import forms
from plans import Flow

MOST_FLOWS = 64


@dataclasses.dataclass
class Entry:
    """An entry of a history, with its number from 1."""

    number: int
    hand: int
    kind: str
    about: int
    state: str
    carried: str
    name: str
    word: str

    @property
    def text(self):
        """What the program's line of it says behind the number and the hand."""
        return " ".join(filter(None, [self.word, self.name, self.state, self.carried]))


@dataclasses.dataclass
class Detail:
    """A flow of a book: its plan and its history."""

    plan: object
    entries: list = dataclasses.field(default_factory=list)

    @property
    def name(self):
        return self.plan.root.name

    @property
    def state(self):
        turns = [it.state for it in self.entries if it.kind == "flow"]
        return turns[-1] if turns else "PENDING"

    def add(self, hand, kind, about, state, carried):
        named = self.plan.flows if kind in ("flow", "resolve") else self.plan.atoms
        if about >= len(named):
            raise forms.NoForm
        word = {"flow": "flow", "atom": getattr(named[about], "word", ""), "resolve": "resolve", "restart": "restart"}[kind]
        self.entries.append(Entry(len(self.entries) + 1, hand, kind, about, state, carried, named[about].name, word))


def details_of(bodies, is_old):
    """The flows of a book. A book of the older format has one flow, and no heads before its bodies.

    Bodies are read by their forms alone. Whether each entry is a step that the rules allow `taskflow show` says."""
    found = []
    for place, body in bodies:
        try:
            add_body(found, body, is_old)
        except (forms.NoForm, KeyError, IndexError) as wrong:
            raise forms.NoForm(place, body[0]) from wrong
    return found


def add_body(found, body, is_old):
    if is_old:
        head, number, rest = (2 if found else 1), 0, body
    else:
        head, number, rest = body[0], int.from_bytes(body[1:3], "big"), body[3 if body[0] == 2 else 1 :]
    if head == 1:
        begun = Detail(forms.plan(rest))
        if not begun.plan.atoms or len(found) == MOST_FLOWS or any(it.name == begun.name for it in found):
            raise forms.NoForm
        found.append(begun)
    elif head == 2:
        found[number].add(*forms.entry(rest))
    else:
        raise forms.NoForm


def tasks_in(flow):
    """The tasks of a flow and of those in it, in tree order."""
    for item in flow.items:
        if isinstance(item, Flow):
            yield from tasks_in(item)
        else:
            yield item
