"""Lays a flow out as nested boxes: where each task, retry controller and flow stands, and which lines join them.

Items of a linear flow go from left to right and go on in the next row, as words do; those of an unordered flow stand in a
compact group; those of a graph flow stand in layers by their links."""
import math

from boxes import ARROW, GAP, HEADER, PAD, RETRY_HEIGHT, TASK, WIDEST_RETRY, WIDTH, Box, Line, shelves
from layers import in_layers
from plans import Flow


def lay_out(flow, width=WIDTH, depth=0):
    """The box of a flow at 0, 0, with what stands in it in places of its own."""
    room = max(width - 2 * PAD, TASK[0])
    boxes = [
        lay_out(item, room, depth + 1) if isinstance(item, Flow) else Box(item, 0, 0, *TASK, depth + 1) for item in flow.items
    ]
    arrange = {"linear": in_rows, "unordered": in_group, "graph": in_graph}[flow.kind]
    lines = arrange(flow, boxes, room) if boxes else []
    top = HEADER + PAD + (RETRY_HEIGHT + GAP if flow.retry else 0)
    right = max([it.x + it.width for it in boxes] + [TASK[0] if flow.retry else 150] + [x for it in lines for x, _ in it.points])
    bottom = max([it.y + it.height for it in boxes] + [y for it in lines for _, y in it.points], default=0)
    for box in boxes:
        box.x, box.y = box.x + PAD, box.y + top
    for line in lines:
        line.points = [(x + PAD, y + top) for x, y in line.points]
    found = Box(flow, 0, 0, right + 2 * PAD, top + bottom + PAD, depth, boxes, lines)
    if flow.retry:
        found.retry = (PAD, HEADER + 8, min(right, WIDEST_RETRY), RETRY_HEIGHT)
    return found


def in_rows(flow, boxes, width):
    lines, y, before = [], 0, None
    for row in shelves(boxes, width - 18, ARROW):
        height, x = max(box.height for box in row), 0
        for box in row:
            box.x, box.y = x, y + (height - box.height) / 2
            x += box.width + ARROW
        if before:
            lines.append(turned_line(before, row[0], y - ARROW / 2))
        lines += [Line([(a.x + a.width, a.middle), (b.x, b.middle)], "order") for a, b in zip(row, row[1:])]
        before = row[-1]
        y += height + ARROW
    return lines


def turned_line(before, after, y):
    """From the end of a row to the front of the next one."""
    end, front = before.x + before.width, after.x
    return Line(
        [(end, before.middle), (end + 9, before.middle), (end + 9, y), (front - 8, y), (front - 8, after.middle), (front, after.middle)],
        "order",
    )


def in_group(flow, boxes, width):
    area = sum((box.width + GAP) * (box.height + GAP) for box in boxes)
    wanted = min(width, max(max(box.width for box in boxes), math.sqrt(area * 1.9)))
    y = 0
    for row in shelves(boxes, wanted + 1, GAP):
        x = 0
        for box in row:
            box.x, box.y = x, y
            x += box.width + GAP
        y += max(box.height for box in row) + GAP
    return []


def in_graph(flow, boxes, width):
    """Items that no link joins are a group, whatever their flow is."""
    links = flow.links + flow.inferred
    return in_layers(flow, boxes, links, width) if links else in_group(flow, boxes, width)
