"""A flow object as the tree that a flow file spells: which atoms and flows it has, under which names, and in which order."""

import collections
import hashlib
import json

from taskflow import atom as atoms
from taskflow import deciders as depths
from taskflow import exceptions
from taskflow import flow as flows
from taskflow import retry as retries
from taskflow import task as tasks
from taskflow.patterns import graph_flow, linear_flow, unordered_flow

from .names import Names
from .refusals import Unsupported
from .values import is_short, places_of

WORD_LIMIT = 16
"""The most characters of a name by which the program asks for a task as it is."""

ATOM_LIMIT, FLOW_LIMIT, NESTING_LIMIT, LINK_LIMIT = 1_000, 500, 16, 4_000
_KINDS = ((linear_flow.Flow, "linear"), (unordered_flow.Flow, "unordered"), (graph_flow.Flow, "graph"))
_RETRIES = ((retries.AlwaysRevertAll, "always_revert_all"), (retries.AlwaysRevert, "always_revert"), (retries.Times, "times"),
            (retries.ForEach, "for_each"), (retries.ParameterizedForEach, "parameterized_for_each"))
_DECISIONS = ("execute", "on_failure", "revert", "_on_failure", "_get_next_value")


class Atom:
    """A task or a retry controller: `thing` is TaskFlow's object, `number` its place among all (int), `spot` its place among the
    items of the flow `home` (None of a retry controller), `label` its name in the file, by which requests name it."""

    def __init__(self, thing, home, spot, number):
        self.thing = thing
        self.name = thing.name
        self.home = home
        self.spot = spot
        self.number = number
        self.places = places_of(thing.save_as)
        self.label = None
        self.is_retry = spot is None

    def provides(self):
        return self.thing.save_as


class Hidden:
    """A task of the file that is no atom of the flow: it asks the decider of an `edge` to an `atom` before the link is followed, or
    idles in a flow without tasks, where there is none."""

    def __init__(self, atom=None, edge=None):
        self.atom = atom
        self.edge = edge
        self.label = None


class Node:
    """A flow: `kind` is that of the file, `items` are Atoms and Nodes, `links` leads from pairs of places to TaskFlow's data."""

    def __init__(self, thing, kind, home, spot):
        self.thing = thing
        self.kind = kind
        self.home = home
        self.spot = spot
        self.name = thing.name
        self.items = []
        self.links = {}
        self.retry = None
        self.label = None
        self._ancestors = {}

    def before(self, spot):
        """The places of the items that come before the one at this place."""
        if self.kind == "linear":
            return range(spot)
        if self.kind == "unordered":
            return ()
        if spot not in self._ancestors:
            self._ancestors[spot] = self._reach(spot)
        return self._ancestors[spot]

    def _reach(self, spot):
        found, left = set(), [spot]
        while left:
            target = left.pop()
            for one, other in self.links:
                if other == target and one not in found:
                    found.add(one)
                    left.append(one)
        return found

    def is_entry(self, spot):
        """Whether nothing in this flow comes before the item, not even a retry controller."""
        if self.kind == "linear":
            return spot == 0
        return self.kind == "unordered" or not any(other == spot for _, other in self.links)


class Plan:
    """All of a flow object. Raises TypeError where a part is no task or flow, ValueError where one stands twice, Duplicate where two
    atoms have one name, and Unsupported where a part has no form in a flow file."""

    def __init__(self, flow):
        self.atoms = []
        self.hidden = []
        self.nodes = []
        self._seen = set()
        self.root = self._root(flow)
        _refuse_duplicates(self.atoms)
        self._edges = {}
        for atom in self.atoms:
            edges = edges_of(atom)
            if edges:
                self._hide_deciders(atom, edges)
        if not self.atoms:
            self.root_idle = self._hide(Hidden())
        self._give_names()
        self._refuse_limits()
        self._words = _words_of([one.label for one in self.atoms + self.hidden])
        self._labels = {word: label for label, word in self._words.items()}
        self.by_label = {atom.label: atom for atom in self.atoms}
        self.by_name = {atom.name: atom for atom in self.atoms}
        self.hidden_by_label = {hidden.label: hidden for hidden in self.hidden}
        self.flow_by_label = {node.label: node for node in self.nodes}
        self.providers = _providers(self.atoms)

    root_idle = None

    def _root(self, flow):
        if isinstance(flow, tasks.Task):
            node = Node(flow, "linear", None, None)
            self.nodes.append(node)
            self._add_item(node, flow)
            return node
        if not isinstance(flow, flows.Flow):
            raise _unknown(flow)
        return self._flow(flow, None, None, 1)

    def _flow(self, thing, home, spot, depth):
        self._see(thing)
        kind = next((kind for pattern, kind in _KINDS if isinstance(thing, pattern)), None)
        if kind is None:
            raise Unsupported(thing.name, "a flow of the type %s is neither linear, unordered nor a graph" % type(thing).__name__)
        if depth > NESTING_LIMIT:
            raise Unsupported(thing.name, "flows are nested more than %d deep" % NESTING_LIMIT)
        node = Node(thing, kind, home, spot)
        self.nodes.append(node)
        if thing.retry is not None:
            refuse_retry(thing.retry)
            node.retry = Atom(thing.retry, node, None, len(self.atoms))
            self.atoms.append(node.retry)
        for item, _ in thing.iter_nodes():
            self._add_item(node, item, depth)
        if kind == "graph":
            spots = {id(item.thing): item.spot for item in node.items}
            node.links = {(spots[id(one)], spots[id(other)]): data for one, other, data in thing.iter_links()}
        return node

    def _add_item(self, node, item, depth=1):
        spot = len(node.items)
        if isinstance(item, tasks.Task):
            self._see(item)
            if type(item.priority) is not int or not -2**31 <= item.priority < 2**31:
                raise Unsupported(item.name, "its priority %r is no integer of 32 bits" % (item.priority,))
            atom = Atom(item, node, spot, len(self.atoms))
            self.atoms.append(atom)
            node.items.append(atom)
        elif isinstance(item, flows.Flow):
            node.items.append(self._flow(item, node, spot, depth + 1))
        else:
            raise _unknown(item)

    def _see(self, item):
        if id(item) in self._seen:
            raise ValueError("Already compiled item '%s' (%s), duplicate and/or recursive compiling is not supported"
                             % (item, type(item)))
        self._seen.add(id(item))

    def _hide(self, hidden):
        self.hidden.append(hidden)
        return hidden

    def _hide_deciders(self, atom, edges):
        if atom.is_retry:
            raise Unsupported(atom.home.name, "a decider stands before a flow with the retry controller %s, which can't be"
                              " skipped" % atom.name)
        asked = [None if is_said(edge, edges, atom) else self._hide(Hidden(atom, edge)) for edge in edges]
        self._edges[atom] = list(zip(edges, asked))

    def word_of(self, label):
        """The word by which the program asks for what has this name: the name, or a digest of a long one, which is the same in each
        process."""
        return self._words[label]

    def label_of(self, word):
        """The name that a word of `word_of` means, or the word itself: files had the names once."""
        return self._labels.get(word, word)

    def edges(self, atom):
        """The decided links to a task: pairs of an Edge and the Hidden task that asks it, or None where the file says the test."""
        return self._edges.get(atom, ())

    def _give_names(self):
        names = Names()
        self.root.label = names.take(self.root.name)
        for atom in self.atoms:
            if not atom.name or type(atom.name) is not str:
                raise ValueError("%s name must be non-empty" % ("Retry" if atom.is_retry else "Task"))
            atom.label = names.take(atom.name)
        for node in self.nodes[1:]:
            node.label = names.take(node.name)
        for hidden in self.hidden:
            edge = hidden.edge
            hidden.label = names.take("decide.%s.%s.%s" % (edge.source.label, edge.target.label, hidden.atom.label) if edge else "idle")

    def _refuse_limits(self):
        count = len(self.atoms) + len(self.hidden)
        if count > ATOM_LIMIT:
            raise Unsupported(self.root.name, "it has %d tasks, retry controllers and deciders, above %d" % (count, ATOM_LIMIT))
        if len(self.nodes) > FLOW_LIMIT:
            raise Unsupported(self.root.name, "it has %d flows, above %d" % (len(self.nodes), FLOW_LIMIT))
        links = sum(len(node.links) for node in self.nodes)
        if links > LINK_LIMIT:
            raise Unsupported(self.root.name, "it has %d links, above %d" % (links, LINK_LIMIT))

    def visible(self, symbol, atom):
        """The atoms that provide a symbol and come before this one."""
        return [one for one in self.providers.get(symbol, ()) if one is not atom and comes_before(one, atom)]


    def form(self):
        """A digest (str) of what the program is told of the flow: which atoms and flows it has, what comes before what, what decides, what
        is undone, and which symbols are taken and given. It is the same whatever order the sets of a process have. The numbers of attempts,
        the values to try and the priorities aren't in it."""
        text = json.dumps([self._form_of(self.root), sorted(map(self._form_of_edges, self._edges))])
        return hashlib.sha256(text.encode()).hexdigest()

    def _form_of(self, item):
        if type(item) is Atom:
            return _form_of_atom(item)
        items = [self._form_of(one) for one in item.items]
        links = sorted([item.items[one].label, item.items[other].label] for one, other in item.links)
        retry = [retry_kind(item.retry.thing), _form_of_atom(item.retry)] if item.retry is not None else None
        return [item.label, item.kind, retry, items if item.kind == "linear" else sorted(items, key=lambda one: one[0]), links]

    def _form_of_edges(self, atom):
        """The deciders before a task: those that the file says are in it, and those that are asked with their places alone."""
        return [atom.label, sorted([edge.source.label, edge.target.label, edge.depth, "" if hidden else repr(edge.decider)]
                                   for edge, hidden in self._edges[atom])]


class Edge:
    """A decided link to an atom: its source (TaskFlow's object), the decider, and its depth (ALL, FLOW, NEIGHBORS or ATOM)."""

    def __init__(self, source, target, data):
        self.source = source
        self.target = target
        self.decider = data[flows.LINK_DECIDER]
        self.depth = (data.get(flows.LINK_DECIDER_DEPTH) or depths.Depth.ALL).value


def edges_of(atom):
    """The decided links that an atom waits for: those to it, and those to a flow that it is the first of."""
    edges, thing, home, spot = [], atom, atom.home, atom.spot
    while home is not None:
        if spot is not None:
            edges.extend(Edge(home.items[one], thing, data) for (one, other), data in home.links.items()
                         if other == spot and flows.LINK_DECIDER in data)
            if home.retry is not None or not home.is_entry(spot):
                break
        thing, spot, home = home, home.spot, home.home
    return edges


def is_said(edge, edges, atom):
    """Whether the file can say this decider: the only one of the atom, a test for a short plain value of a task's result."""
    from .deciders import test
    decider = edge.decider
    return (type(decider) is test and set(decider.wanted) == {"equals"} and len(edges) == 1 and edge.target is atom
            and type(edge.source) is Atom and type(decider.wanted["equals"]) in (bool, int, str, type(None))
            and is_short(decider.wanted["equals"]))


def comes_before(one, other):
    """Whether an atom comes before another in the order of the plan."""
    line = []
    node, spot = other.home, other.spot
    while node is not None:
        line.append((node, spot))
        node, spot = node.home, node.spot
    at = {id(node): spot for node, spot in line}
    node, spot = one.home, one.spot
    while id(node) not in at:
        node, spot = node.home, node.spot
    theirs = at[id(node)]
    if spot is None or theirs is None:
        return spot is None and theirs is not None
    return spot in node.before(theirs)


def refuse_retry(controller):
    """Raises Unsupported where a retry controller isn't of the five that the program has, or decides by code of its own."""
    for pattern, _ in _RETRIES:
        if isinstance(controller, pattern):
            own = [name for name in _DECISIONS if getattr(type(controller), name, None) is not getattr(pattern, name, None)]
            if own:
                raise Unsupported(controller.name, "the retry controller has %s of its own; the program decides by the rules of"
                                  " AlwaysRevert, AlwaysRevertAll, Times, ForEach or ParameterizedForEach alone" % own[0])
            return
    raise Unsupported(controller.name, "a retry controller of the type %s isn't one of AlwaysRevert, AlwaysRevertAll, Times, ForEach"
                      " and ParameterizedForEach" % type(controller).__name__)


def retry_kind(controller):
    """The word of a flow file for a retry controller."""
    return next(kind for pattern, kind in _RETRIES if isinstance(controller, pattern))


def _words_of(labels):
    """From each name to its word. No name begins as a digest does, and two that had the same one keep their names."""
    words = {label: label if len(label) <= WORD_LIMIT else "." + hashlib.sha256(label.encode()).hexdigest()[:10] for label in labels}
    counts = collections.Counter(words.values())
    return {label: word if counts[word] == 1 else label for label, word in words.items()}


def _form_of_atom(atom):
    thing = atom.thing
    takes = [sorted({str(symbol) for symbol in rebind.values() if symbol not in optional and not (thing.inject and symbol in thing.inject)})
             for rebind, optional in ((thing.rebind, thing.optional), (thing.revert_rebind, thing.revert_optional))]
    gives = sorted([str(symbol), str(index)] for symbol, index in thing.save_as.items())
    return [atom.label, takes, gives, atom.is_retry or undoes(thing)]


def _providers(all_of_them):
    found = {}
    for atom in all_of_them:
        for symbol in atom.provides():
            found.setdefault(symbol, []).append(atom)
    return found


def undoes(task):
    """Whether a task does anything where it is reverted."""
    kind = type(task)
    if kind.pre_revert is not atoms.Atom.pre_revert or kind.post_revert is not atoms.Atom.post_revert:
        return True
    if kind.revert is tasks.FunctorTask.revert:
        return task._revert is not None
    return kind.revert is not atoms.Atom.revert


def _unknown(item):
    return TypeError("Unknown object '%s' (%s) requested to compile" % (item, type(item)))


def _refuse_duplicates(all_of_them):
    seen, twice = set(), set()
    for atom in all_of_them:
        (twice if atom.name in seen else seen).add(atom.name)
    if twice:
        raise exceptions.Duplicate("Atoms with duplicate names found: %s" % sorted(twice))
