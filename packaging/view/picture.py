"""Draws a flow as nested boxes of HTML, with lines between them of SVG."""
from html import escape

from boxes import Box
from layout import lay_out
from plans import Flow
from telling import short


def picture(detail, story):
    box = lay_out(detail.plan.root)
    return f'<div class="picture" style="width:{box.width:.0f}px;height:{box.height:.0f}px">{drawn_flow(box, story)}</div>'


def place(x, y, width, height):
    return f'style="left:{x:.0f}px;top:{y:.0f}px;width:{width:.0f}px;height:{height:.0f}px"'


def drawn_flow(box, story):
    flow = box.item
    parts = [
        f'<section class="flow depth{box.depth % 4}" data-flow="{flow.number}" {place(box.x, box.y, box.width, box.height)}>',
        f'<h3>{escape(flow.name)} <small>{flow.kind}</small></h3>',
        drawn_lines(box),
    ]
    if flow.retry:
        parts.append(drawn_atom(flow.retry, box.retry, story))
    for inner in box.inner:
        if isinstance(inner.item, Flow):
            parts.append(drawn_flow(inner, story))
        else:
            parts.append(drawn_atom(inner.item, (inner.x, inner.y, inner.width, inner.height), story))
    parts.append("</section>")
    return "".join(parts)


def drawn_atom(atom, where, story):
    fate = story.fates[atom.number]
    kind = atom.kind if atom.word == "task" else f"↻ {atom.kind} {short(atom.tries, 40)}"
    failed = " data-failed" if fate.failure else ""
    tries = f"×{fate.executions}" if fate.executions > 1 else ""
    return (
        f'<div class="atom {atom.word}" tabindex="0" data-atom="{atom.number}" data-state="{fate.state}"{failed} {place(*where)}>'
        f"<span><b>{escape(atom.name)}</b><u>{tries}</u><small>{escape(kind)}</small></span>"
        f"<i>{fate.state}</i><code>{escape(short(fate.carried or fate.failure, 80))}</code></div>"
    )


def drawn_lines(box: Box):
    if not box.lines:
        return ""
    shapes = []
    numbers = {inner.item.name: inner.item.number for inner in box.inner if not isinstance(inner.item, Flow)}
    for line in box.lines:
        title = title_of(line.link)
        path = rounded(line.points) if line.kind == "order" else curved(line)
        sort = f"{line.kind}{' asked' if line.link and line.link.test else ''}"
        ends = ends_of(line.link, numbers)
        shapes.append(f'<path class="{sort}" d="{path}"{ends}>{title}</path><path class="tip {sort}" d="{tip_of(line)}"{ends}/>')
        if line.link and line.link.test:
            x, y = middle(line.points)
            shapes.append(f'<g class="decider"><path d="M{x - 7:.1f} {y:.1f}l7 -7l7 7l-7 7z"/>{title}</g>')
    return f'<svg class="lines" width="{box.width:.0f}" height="{box.height:.0f}" aria-hidden="true">{"".join(shapes)}</svg>'


def ends_of(link, numbers):
    """The tasks that a link joins: as one is looked at, its links are shown."""
    if link is None:
        return ""
    ends = [("from", numbers.get(link.source)), ("to", numbers.get(link.target))]
    return "".join(f' data-{word}="{number}"' for word, number in ends if number is not None)


def tip_of(line):
    """The arrow's tip: it comes in from the left, or from above."""
    x, y = line.points[-1]
    return f"M{x:.1f} {y:.1f}l-4.5 -8h9z" if line.down else f"M{x:.1f} {y:.1f}l-8 -4.5v9z"


def title_of(link):
    if link is None:
        return ""
    if link.symbols:
        said = f"{link.target} takes {', '.join(link.symbols)} from {link.source}"
    elif link.test:
        said = f"{link.target} only where {link.test}; else {link.depth} is skipped"
    else:
        said = f"{link.target} after {link.source}"
    return f"<title>{escape(short(said, 400))}</title>"


def middle(points):
    """The middle of the first piece that isn't level with a box."""
    (x, y), (u, v) = points[0], points[1]
    return (x + u) / 2, (y + v) / 2


def rounded(points):
    return "M" + "L".join(f"{x:.1f} {y:.1f}" for x, y in points)


def curved(line):
    """Smooth between layers, straight where it passes one."""
    points = line.points
    parts = [f"M{points[0][0]:.1f} {points[0][1]:.1f}"]
    for at, ((x, y), (u, v)) in enumerate(zip(points, points[1:])):
        if at % 2:
            parts.append(f"L{u:.1f} {v:.1f}")
        elif line.down:
            parts.append(f"C{x:.1f} {(y + v) / 2:.1f} {u:.1f} {(y + v) / 2:.1f} {u:.1f} {v:.1f}")
        else:
            parts.append(f"C{(x + u) / 2:.1f} {y:.1f} {(x + u) / 2:.1f} {v:.1f} {u:.1f} {v:.1f}")
    return "".join(parts)
