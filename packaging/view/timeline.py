"""Draws a history as a time line: a column for each entry, a row for each hand, a bar for each piece of work."""
import dataclasses
from html import escape

from telling import short

LEFT = 74
ROW = 30
TOP = 26
WIDEST, NARROWEST, WIDTH = 38, 6, 1180
SMALL = ("IGNORE", "PENDING", "RETRYING")


@dataclasses.dataclass
class Scale:
    """Where the column of an entry stands."""

    since: int
    count: int

    @property
    def unit(self):
        return min(WIDEST, max(NARROWEST, (WIDTH - LEFT) / max(self.count - self.since, 1)))

    def edge(self, number):
        return LEFT + (number - 1 - self.since) * self.unit

    def centre(self, number):
        return self.edge(number) + self.unit / 2

    @property
    def width(self):
        return self.edge(max(self.count, 1) + 1) + 12


def timeline(detail, story):
    scale = Scale(story.since, len(detail.entries))
    height = TOP + ROW * (story.hands + 1) + 10
    drawn = detail.entries[story.since :]
    parts = [
        f'<svg class="timeline" width="{scale.width:.0f}" height="{height:.0f}" data-left="{LEFT}" data-unit="{scale.unit:.3f}">',
        *rows(story, scale.width),
        *axis(scale),
        *(turn_bar(detail, turn, scale) for turn in story.turns),
        *flow_marks(drawn, scale, height),
        *(atom_mark(entry, scale) for entry in drawn if entry.kind == "atom" and entry.state in SMALL),
        f'<line id="cursor" x1="0" x2="0" y1="14" y2="{height - 4:.0f}" hidden/></svg>',
    ]
    return "".join(parts)


def rows(story, width):
    for row in range(story.hands + 1):
        y = TOP + ROW * row
        label = f"hand {row - 1}" if row else "flow"
        yield f'<rect class="row{row % 2}" x="0" y="{y}" width="{width:.0f}" height="{ROW}"/>'
        yield f'<text class="label" x="8" y="{y + 19}">{label}</text>'


def axis(scale):
    step = next(it for it in (1, 2, 5, 10, 20, 50, 100, 200, 500, 10**9) if it * scale.unit >= 34)
    for number in range(scale.since // step * step + step, scale.count + 1, step):
        yield f'<text class="tick" x="{scale.centre(number):.1f}" y="18">{number}</text>'


def turn_bar(detail, turn, scale):
    atom = detail.plan.atoms[turn.atom]
    sort = {"SUCCESS": "done", "FAILURE": "failed", "REVERTED": "undone", "REVERT_FAILURE": "stuck"}.get(turn.end, "cut")
    x, y = scale.edge(max(turn.first, scale.since + 1)), TOP + ROW * (turn.hand + 1) + 4
    width = max(scale.edge(turn.last + 1) - x - 1.5, 3)
    sign = {"failed": "✕ ", "stuck": "✕ ", "undone": "↶ ", "cut": "… "}.get(sort, "↻ " if atom.word == "retry" else "")
    label = escape(fitted(sign + atom.name, width))
    text = f'<text x="{x + 5:.1f}" y="{y + 15}">{label}</text>' if label else ""
    return (
        f'<g class="turn {sort} {atom.word}" data-atom="{turn.atom}" data-entry="{turn.last}">'
        f'<rect x="{x:.1f}" y="{y}" width="{width:.1f}" height="{ROW - 8}" rx="4"/>{text}</g>'
    )


def fitted(label, width):
    """As much of a label as there is room for; of a very narrow one its sign alone."""
    most = int((width - 8) / 6.3)
    if len(label) <= most:
        return label
    if most > 2:
        return label[: most - 1] + "…"
    return label[:1] if most > 0 and not label[0].isalnum() else ""


def flow_marks(entries, scale, height):
    """What stands in the flow's row: its states, what failures are resolved to, and where a run was cut off or suspended."""
    told = [entry for entry in entries if entry.kind in ("flow", "resolve")]
    for entry, after in zip(told, [*told[1:], None]):
        x, y = scale.centre(entry.number), TOP + ROW / 2
        room = (scale.centre(after.number) if after else scale.width) - x - 16
        said = f"{entry.state} {entry.name}" if entry.kind == "resolve" else entry.state
        shape = f"M{x - 7:.1f} {y}l7 -7l7 7l-7 7z" if entry.kind == "resolve" else f"M{x:.1f} {y}m-6 0a6 6 0 1 0 12 0a6 6 0 1 0 -12 0"
        yield f'<g class="mark {entry.kind} {entry.state}" data-entry="{entry.number}"><path d="{shape}"/>'
        yield f'<text x="{x + 10:.1f}" y="{y + 4}">{escape(fitted(said, room))}</text>'
        yield f"<title>{entry.number} {escape(short(entry.text, 300))}</title></g>"
        if entry.state in ("RESUMING", "SUSPENDED"):
            yield f'<line class="break" x1="{x:.1f}" x2="{x:.1f}" y1="{TOP}" y2="{height - 8:.0f}"/>'


def atom_mark(entry, scale):
    """A small entry of an atom that is no work: it is skipped, or put back."""
    x, y = scale.centre(entry.number), TOP + ROW * (entry.hand + 1) + ROW / 2
    return (
        f'<g class="mark atom {entry.state}" data-atom="{entry.about}" data-entry="{entry.number}">'
        f'<path d="M{x - 2.5:.1f} {y}h5"/><title>{entry.number} {escape(short(entry.text, 300))}</title></g>'
    )
