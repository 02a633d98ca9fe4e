"""Plans: flows, tasks and retry controllers, numbered as entries name them, and which item of a flow leads to which."""
from __future__ import annotations

import dataclasses


@dataclasses.dataclass
class Task:
    name: str
    kind: str
    words: list = dataclasses.field(default_factory=list)
    arguments: list = dataclasses.field(default_factory=list)
    injects: dict = dataclasses.field(default_factory=dict)
    provides: list = dataclasses.field(default_factory=list)
    priority: int = 0
    undo: object = "ok"
    number: int = -1
    word = "task"


@dataclasses.dataclass
class Retry:
    name: str
    kind: str
    tries: str = ""
    reverts_all: bool = False
    arguments: list = dataclasses.field(default_factory=list)
    injects: dict = dataclasses.field(default_factory=dict)
    provides: list = dataclasses.field(default_factory=list)
    number: int = -1
    word = "retry"


@dataclasses.dataclass
class Link:
    source: str
    target: str
    depth: str = ""
    test: str = ""
    symbols: list = dataclasses.field(default_factory=list)


@dataclasses.dataclass
class Flow:
    name: str
    kind: str
    retry: Retry | None = None
    items: list = dataclasses.field(default_factory=list)
    links: list = dataclasses.field(default_factory=list)
    number: int = -1
    needs: set = dataclasses.field(default_factory=set)
    gives: set = dataclasses.field(default_factory=set)
    inferred: list = dataclasses.field(default_factory=list)


@dataclasses.dataclass
class Plan:
    root: Flow
    store: dict
    defers: bool
    atoms: list = dataclasses.field(default_factory=list)
    flows: list = dataclasses.field(default_factory=list)

    givers: dict = dataclasses.field(default_factory=dict)

    def __post_init__(self):
        number(self, self.root)
        infer(self.root)
        for atom in self.atoms:
            for symbol in atom.provides:
                self.givers.setdefault(symbol, []).append(atom.name)


def number(plan, flow):
    """Numbers atoms and flows in tree order: a flow, its retry controller, its items as they stand."""
    flow.number = len(plan.flows)
    plan.flows.append(flow)
    if flow.retry:
        flow.retry.number = len(plan.atoms)
        plan.atoms.append(flow.retry)
    for item in flow.items:
        if isinstance(item, Flow):
            number(plan, item)
        else:
            item.number = len(plan.atoms)
            plan.atoms.append(item)


def taken(atom):
    """The symbols that an atom takes from others."""
    return {symbol for _, symbol in atom.arguments if symbol not in atom.injects}


def needs_of(item):
    return item.needs if isinstance(item, Flow) else taken(item)


def gives_of(item):
    return item.gives if isinstance(item, Flow) else set(item.provides)


def infer(flow):
    """Finds the links that symbols give in a graph flow, the innermost flows first, and what the flow needs and gives."""
    for item in flow.items:
        if isinstance(item, Flow):
            infer(item)
    own = set(flow.retry.provides) if flow.retry else set()
    givers = givers_in(flow)
    places = {item.name: place for place, item in enumerate(flow.items)}
    links = [(places[link.source], places[link.target]) for link in flow.links]
    if flow.kind == "graph":
        flow.inferred = inferred_links(flow, ancestors(len(flow.items), links), givers, own)
        links += [(places[link.source], places[link.target]) for link in flow.inferred]
    before = ancestors(len(flow.items), links) if flow.kind == "graph" else None
    flow.gives = own.union(givers)
    flow.needs = (taken(flow.retry) if flow.retry else set()).union(
        symbol
        for place, item in enumerate(flow.items)
        for symbol in needs_of(item) - own
        if not is_served(flow, place, givers.get(symbol, ()), before)
    )


def is_served(flow, place, givers, before):
    """An item before this one is among those that give the symbol."""
    if flow.kind == "graph":
        return not before[place].isdisjoint(givers)
    return flow.kind == "linear" and any(it < place for it in givers)


def givers_in(flow):
    """For each symbol the places of the items that give it."""
    found = {}
    for place, item in enumerate(flow.items):
        for symbol in gives_of(item):
            found.setdefault(symbol, []).append(place)
    return found


def ancestors(count, links):
    """The items that reach each item by links."""
    into = [set() for _ in range(count)]
    for source, target in links:
        into[target].add(source)
    found = [None] * count

    def close(place):
        waiting, seen = [place], set()
        while waiting:
            for source in into[waiting.pop()]:
                if source not in seen:
                    seen.add(source)
                    if found[source] is not None:
                        seen |= found[source]
                    else:
                        waiting.append(source)
        return seen

    for place in range(count):
        found[place] = close(place)
    return found


def inferred_links(flow, before, givers, own):
    found = {}
    for place, item in enumerate(flow.items):
        for symbol in sorted(needs_of(item) - own):
            others = [it for it in givers.get(symbol, ()) if it != place]
            if len(others) == 1 and before[place].isdisjoint(givers[symbol]):
                found.setdefault((others[0], place), []).append(symbol)
    return [
        Link(flow.items[source].name, flow.items[target].name, symbols=symbols) for (source, target), symbols in found.items()
    ]
