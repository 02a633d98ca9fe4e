"""Lays items out in layers by the links among them: each stands behind all that lead to it, near what it is joined to."""
from boxes import ARROW, GAP, Box, Line, shelves

LAYER_GAP = 56
LANE = 12
MOST_LANES = 4000
HIGHEST = 1000


class Lane(Box):
    """Where a long line passes a layer."""

    def __init__(self):
        super().__init__(None, 0, 0, LANE, LANE, 0)


def in_layers(flow, boxes, links, width):
    places = {item.name: place for place, item in enumerate(flow.items)}
    joins = [(places[it.source], places[it.target], it) for it in links]
    ranks = ranks_of(len(boxes), joins)
    layers = [[] for _ in range(max(ranks) + 1)]
    for place, box in enumerate(boxes):
        layers[ranks[place]].append(box)
    across = sum(max(box.width for box in layer) for layer in layers) + LAYER_GAP * (len(layers) - 1)
    high = max(sum(box.height + GAP for box in layer) for layer in layers)
    down = across > width or high > HIGHEST
    paths = paths_of(boxes, joins, ranks, layers)
    back, forth = neighbours(paths)
    sort_layers(layers, back, forth)
    (stand_below if down else stand_beside)(layers, back, forth, width)
    return [drawn(path, link, down) for path, link in paths]


def ranks_of(count, joins):
    """Of each item how many links the longest way to it has."""
    after, waits = [[] for _ in range(count)], [0] * count
    for source, target, _ in joins:
        after[source].append(target)
        waits[target] += 1
    ranks, ready = [0] * count, [it for it in range(count) if not waits[it]]
    while ready:
        source = ready.pop()
        for target in after[source]:
            ranks[target] = max(ranks[target], ranks[source] + 1)
            waits[target] -= 1
            if not waits[target]:
                ready.append(target)
    return ranks


def paths_of(boxes, joins, ranks, layers):
    """Of each link what it passes: its ends, and a lane in each layer between, where these aren't too many."""
    lanes = sum(ranks[target] - ranks[source] - 1 for source, target, _ in joins)
    found = []
    for source, target, link in joins:
        path = [boxes[source]]
        for rank in range(ranks[source] + 1, ranks[target]) if lanes <= MOST_LANES else ():
            path.append(Lane())
            layers[rank].append(path[-1])
        found.append(([*path, boxes[target]], link))
    return found


def neighbours(paths):
    """What each box or lane is joined to in the layers before, and in those after."""
    back, forth = {}, {}
    for path, _ in paths:
        for one, other in zip(path, path[1:]):
            forth.setdefault(one, []).append(other)
            back.setdefault(other, []).append(one)
    return back, forth


def sort_layers(layers, back, forth):
    """Puts what is joined near each other: each layer by the middle of what it is joined to, to and fro."""
    places = {it: place for layer in layers for place, it in enumerate(layer)}
    for joined, order in [(back, layers[1:]), (forth, layers[-2::-1]), (back, layers[1:])]:
        for layer in order:
            keys = {it: mean([places[other] for other in joined.get(it, ())], places[it]) for it in layer}
            layer.sort(key=keys.get)
            places.update((it, place) for place, it in enumerate(layer))


def mean(numbers, otherwise):
    return sum(numbers) / len(numbers) if numbers else otherwise


def spread(layers, back, forth, sizes):
    """Places along the layers: each box as near to the middle of what it is joined to as its neighbours let it."""
    starts = {}
    for layer in layers:
        at = -sum(sizes(it) + GAP for it in layer) / 2
        for it in layer:
            starts[it] = at
            at += sizes(it) + GAP
    for joined, order in [(back, layers[1:]), (forth, layers[-2::-1]), (back, layers[1:])]:
        for layer in order:
            wanted = [
                mean([starts[other] + sizes(other) / 2 for other in joined.get(it, ())], starts[it] + sizes(it) / 2) - sizes(it) / 2
                for it in layer
            ]
            starts.update(zip(layer, settled(wanted, [sizes(it) + GAP for it in layer])))
    least = min(starts.values())
    return {it: start - least for it, start in starts.items()}


def settled(wanted, sizes):
    """The places nearest to the wanted ones at which nothing overlaps: what would overlap moves as one block."""
    offsets = [0]
    for size in sizes:
        offsets.append(offsets[-1] + size)
    blocks = []
    for place, offset in zip(wanted, offsets):
        blocks.append([place - offset, 1])
        while len(blocks) > 1 and blocks[-2][0] > blocks[-1][0]:
            mean_two, count_two = blocks.pop()
            mean_one, count_one = blocks.pop()
            count = count_one + count_two
            blocks.append([(mean_one * count_one + mean_two * count_two) / count, count])
    means = [block for block, count in blocks for _ in range(count)]
    return [block + offset for block, offset in zip(means, offsets)]


def stand_beside(layers, back, forth, width):
    """Layers as columns."""
    starts = spread(layers, back, forth, lambda it: it.height)
    x = 0
    for layer in layers:
        wide = max(it.width for it in layer)
        for it in layer:
            it.width = wide if isinstance(it, Lane) else it.width
            it.x, it.y = x + (wide - it.width) / 2, starts[it]
        x += wide + LAYER_GAP


def stand_below(layers, back, forth, width):
    """Layers as rows; where one is too wide, each goes on in further rows."""
    starts = spread(layers, back, forth, lambda it: it.width)
    fits = max(starts[it] + it.width for layer in layers for it in layer) <= 1.5 * width
    y = 0
    for layer in layers:
        for row in [layer] if fits else shelves(layer, width, GAP):
            x, high = 0, max(it.height for it in row)
            for it in row:
                it.height = high if isinstance(it, Lane) else it.height
                it.x, it.y = starts[it] if fits else x, y
                x += it.width + GAP
            y += high + GAP
        y += ARROW


def drawn(path, link, down):
    """A line's points: it leaves at the right and comes in at the left, or leaves below and comes in above."""
    points = []
    for it in path:
        points += [(it.centre, it.y), (it.centre, it.y + it.height)] if down else [(it.x, it.middle), (it.x + it.width, it.middle)]
    return Line(points[1:-1], "symbol" if link.symbols else "link", link, down)
