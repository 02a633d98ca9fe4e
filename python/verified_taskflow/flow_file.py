"""Writes a plan as a flow file."""

from json.encoder import encode_basestring

from taskflow import exceptions

from .names import Names, name_for
from .plan import Atom, retry_kind, undoes
from .refusals import Unsupported
from .values import NotKept

FILE_LIMIT = 262_144
ARGUMENT_LIMIT = 64
STORE_LIMIT = 256
SEVERAL = "several."
"""The front of the name of a result that gives several symbols."""


def quoted(text):
    """A text as TOML has it."""
    return encode_basestring(text).replace("\x7f", "\\u007f")


def _array(texts):
    return "[%s]" % ",".join(map(quoted, texts))


class FlowFile:
    """The flow file of a plan with the values of a store (a dict from symbols to values), made by `texts`; `injected` gives what an Atom takes
    from nobody (a dict from symbols).

    `text` is the file, `stored` the texts of the store's values that it has (a dict from symbols). Raises MissingDependencies where nobody
    can give a symbol, and Unsupported where something has no form."""

    def __init__(self, plan, store, texts, injected):
        self._injected = {atom: injected(atom) for atom in plan.atoms}
        self._plan = plan
        self._store = store
        self._texts = texts
        self._names = Names()
        self._symbols = {}
        self._values = {}
        self.stored = {}
        self._refuse_missing()
        self._sources = {atom: self._sources_of(atom) for atom in plan.atoms}
        self._groups = self._groups_of_results()
        self._written = {atom: self._requires(atom) for atom in plan.atoms}
        root, items = plan.root, self._items(plan.root)
        retry = self._retry_table(root)
        parts = ["name = %s" % quoted(root.label), "kind = %s" % quoted(self._kind(root)), self._store_table(),
                 retry and "retry = " + retry, "items = [\n%s\n]" % ",\n".join(items), self._links_of(root)]
        self.text = "\n".join(part for part in parts if part) + "\n"
        if len(self.text.encode()) > FILE_LIMIT:
            raise Unsupported(plan.root.name, "its flow file has %d bytes, above %d" % (len(self.text.encode()), FILE_LIMIT))

    # Arguments.

    def _refuse_missing(self):
        cause, last, count, missing = None, None, 0, set()
        for atom in self._plan.atoms:
            for method, lacks in (("execute", self._lacks(atom, atom.thing.rebind, atom.thing.optional)),
                                  ("revert", self._lacks(atom, atom.thing.revert_rebind, atom.thing.revert_optional))):
                if lacks:
                    cause = exceptions.MissingDependencies(atom.thing, sorted(lacks), cause=cause, method=method)
                    last, count = atom, count + 1
                    missing.update(lacks)
        if count == 1 and last.thing is self._plan.root.thing:
            raise cause
        if missing:
            raise exceptions.MissingDependencies(self._plan.root.thing, sorted(missing), cause=cause)

    def _lacks(self, atom, rebind, optional):
        return [name for name, symbol in rebind.items() if name not in optional and not self._is_given(atom, symbol)]

    def _is_given(self, atom, symbol):
        return symbol in self._injected[atom] or symbol in self._store or bool(self._plan.visible(symbol, atom))

    def _sources_of(self, atom):
        """From each symbol that an atom takes without injecting it to whether the store gives it, and not another's result."""
        thing, found = atom.thing, {}
        for rebind, optional in ((thing.rebind, thing.optional), (thing.revert_rebind, thing.revert_optional)):
            for symbol in rebind.values():
                if symbol not in self._injected[atom] and (symbol not in optional or self._is_given(atom, symbol)):
                    found[symbol] = symbol in self._store
        return found

    def _groups_of_results(self):
        """From each symbol that some atom takes from another's result to the symbols that are given together with it."""
        taken = {symbol for found in self._sources.values() for symbol, stored in found.items() if not stored}
        groups = {}
        for symbol in sorted(taken, key=str):
            for atom in self._plan.providers[symbol]:
                group = tuple(sorted((one for one in atom.provides() if one in taken), key=str))
                if groups.setdefault(symbol, group) != group:
                    raise Unsupported(atom.name, "it provides %s together with other symbols than another atom that provides it:"
                                      " %s and %s" % (symbol, ", ".join(group), ", ".join(groups[symbol])))
        return groups

    def _name_of(self, symbol, stored):
        """The name in the file of what gives a symbol: a value of the store, or a result."""
        if not stored and len(self._groups[symbol]) > 1:
            return self._symbol(SEVERAL + str(self._groups[symbol][0]))
        return self._symbol(symbol)

    def _symbol(self, symbol):
        if symbol not in self._symbols:
            self._symbols[symbol] = self._names.take(str(symbol))
        return self._symbols[symbol]

    # The store.

    def _store_table(self):
        if len(self._values) > STORE_LIMIT:
            raise Unsupported(self._plan.root.name, "its store has %d values, above %d" % (len(self._values), STORE_LIMIT))
        pairs = ("%s=%s" % (quoted(name), text) for name, text in self._values.items())
        return "store = {%s}" % ",".join(pairs) if self._values else None

    def _requires(self, atom):
        """The names of what gives an atom its values. Those of a retry controller, but for the values that it tries, mean nothing."""
        if atom.is_retry:
            return []
        found = {}
        for symbol, stored in self._sources[atom].items():
            label = self._name_of(symbol, stored)
            found[label] = True
            if stored:
                self._keep(label, symbol)
        if len(found) > ARGUMENT_LIMIT:
            raise Unsupported(atom.name, "it takes %d values, above %d" % (len(found), ARGUMENT_LIMIT))
        return list(found)

    def _keep(self, label, symbol):
        if label not in self._values:
            try:
                text = self._texts.text_of(self._store[symbol], None, "the value of %s in the store" % symbol)
            except NotKept as fault:
                raise Unsupported(self._plan.root.name, str(fault)) from None
            self._values[label] = quoted(text)
            self.stored[symbol] = text

    # Items.

    def _kind(self, node):
        """The kind that the file has for a flow: a graph also where deciders stand in it."""
        return "graph" if any(type(item) is Atom and self._plan.edges(item) for item in node.items) else node.kind

    def _items(self, node):
        """The items of a flow, a text for each."""
        items = [self._task_table(item) if type(item) is Atom else self._flow_table(item) for item in node.items]
        if self._plan.root_idle and node is self._plan.root:
            items.append(self._hidden_item(self._plan.root_idle))
        return items + [self._hidden_item(hidden) for hidden in self._hidden_of(node)]

    def _links_of(self, node):
        return "links = [%s]" % ",".join(self._links(node)) if self._kind(node) == "graph" else None

    def _flow_table(self, node):
        retry = self._retry_table(node)
        parts = ["flow=%s" % quoted(node.label), "kind=%s" % quoted(self._kind(node)), retry and "retry=" + retry,
                 "items=[%s]" % ",".join(self._items(node)), self._links_of(node)]
        return "{%s}" % ",".join(part for part in parts if part)

    def _task_table(self, atom):
        word = quoted(self._plan.word_of(atom.label))
        parts = ["task=%s" % quoted(atom.label), 'kind="command"', "run=[%s]" % word]
        if self._written[atom]:
            parts.append("requires=%s" % _array(self._written[atom]))
        name = self._provided(atom)
        if name:
            parts.append("provides=%s" % quoted(name))
        if undoes(atom.thing):
            parts.append("revert=[%s]" % word)
        if atom.thing.priority:
            parts.append("priority=%d" % atom.thing.priority)
        return "{%s}" % ",".join(parts)

    def _provided(self, atom):
        group = next((self._groups[symbol] for symbol in atom.provides() if symbol in self._groups), None)
        return group and self._name_of(group[0], False)

    def _hidden_of(self, node):
        return [hidden for item in node.items if type(item) is Atom for _, hidden in self._plan.edges(item) if hidden]

    def _hidden_item(self, hidden):
        return '{task=%s,kind="command",run=[%s]}' % (quoted(hidden.label), quoted(self._plan.word_of(hidden.label)))

    def _links(self, node):
        """The links of a flow that is written as a graph: its own, and those to and from its hidden tasks."""
        pairs = {}
        if node.kind == "linear":
            pairs.update({(at, at + 1): None for at in range(len(node.items) - 1)})
        for one, other in node.links:
            pairs[one, other] = None
        links = []
        for item in node.items:
            if type(item) is Atom:
                links += self._decided_links(node, item, pairs)
        return links + [_link(node.items[one].label, node.items[other].label, decider) for (one, other), decider in pairs.items()]

    def _decided_links(self, node, atom, pairs):
        links, edges = [], self._plan.edges(atom)
        for edge, hidden in edges:
            if hidden is None:
                pairs[edge.source.spot, atom.spot] = "decider=%s,depth=%s" % (self._test(edge), quoted(edge.depth))
                continue
            for other, _ in edges:
                if other.source.home is node and other.source is not atom:
                    links.append(_link(other.source.label, hidden.label, None))
            links.append(_link(hidden.label, atom.label, "decider={result=%s,is=%s},depth=%s" % (
                quoted(hidden.label), quoted(self._texts.text_of(True)), quoted(edge.depth))))
        return sorted(set(links))

    def _test(self, edge):
        decider = edge.decider
        text = self._texts.text_of(decider.wanted["equals"], edge.source.places)
        test = "{result=%s,is=%s}" % (quoted(edge.source.label), quoted(text))
        return "{not=%s}" % test if decider.negated else test

    # Retry controllers.

    def _retry_table(self, node):
        if node.retry is None:
            return None
        thing, kind = node.retry.thing, retry_kind(node.retry.thing)
        parts = ["name=%s" % quoted(node.retry.label), "kind=%s" % quoted(kind)]
        if kind == "times":
            parts.append("attempts=%d" % self._attempts(node.retry))
        if kind == "for_each":
            parts.append("values=%s" % self._list(node.retry, thing._values))
        if kind == "parameterized_for_each":
            parts.append("rebind={values=%s}" % quoted(self._listed_values(node.retry)))
        if getattr(thing, "_revert_action", None) == "REVERT_ALL":
            parts.append("revert_all=true")
        name = self._provided(node.retry)
        if name:
            parts.append("provides=%s" % quoted(name))
        return "{%s}" % ",".join(parts)

    def _attempts(self, atom):
        attempts = atom.thing._attempts
        if type(attempts) is not int or attempts > 1_000:
            raise Unsupported(atom.name, "%r attempts; it may have 1 to 1000" % (attempts,))
        return max(attempts, 1)

    def _list(self, atom, values):
        try:
            return _array(self._texts.text_of(value, atom.places, "a value of %s" % atom.name) for value in values)
        except NotKept as fault:
            raise Unsupported(atom.name, str(fault)) from None

    def _listed_values(self, atom):
        symbol = atom.thing.rebind.get("values", "values")
        if symbol not in self._store:
            raise Unsupported(atom.name, "the values that it tries must be in the store; %s is a result" % symbol)
        if not isinstance(self._store[symbol], (list, tuple, set, frozenset)):
            raise Unsupported(atom.name, "the values that it tries, %s, are no list" % symbol)
        label = self._symbol("values of %s for %s" % (symbol, atom.name))
        self._values[label] = self._list(atom, self._store[symbol])
        return label


def value_of(given, symbol, texts):
    """The value of a symbol among what the program gave an atom (a dict from names). Raises LookupError where it isn't there."""
    label = name_for(str(symbol))
    if label in given:
        return texts.item_of(given[label], symbol)
    for name, text in given.items():
        if type(text) is str and symbol in (texts.value_of(text)[1] or ()):
            return texts.item_of(text, symbol)
    raise LookupError("nobody gave %r" % (symbol,))


def _link(one, other, decider):
    return "{from=%s,to=%s%s}" % (quoted(one), quoted(other), "," + decider if decider else "")
