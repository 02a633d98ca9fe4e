"""Boxes and lines of a picture, and how large they are."""
import dataclasses

TASK = (172, 48)
RETRY_HEIGHT = 44
WIDEST_RETRY = 264
HEADER = 26
PAD = 12
GAP = 14
ARROW = 34
WIDTH = 1180


@dataclasses.dataclass(eq=False)
class Box:
    item: object
    x: float
    y: float
    width: float
    height: float
    depth: int
    inner: list = dataclasses.field(default_factory=list)
    lines: list = dataclasses.field(default_factory=list)
    retry: tuple = ()

    @property
    def middle(self):
        return self.y + self.height / 2

    @property
    def centre(self):
        return self.x + self.width / 2


@dataclasses.dataclass
class Line:
    """A line through these points; `kind` is order, link or symbol, and it goes down where it doesn't go to the right."""

    points: list
    kind: str
    link: object = None
    down: bool = False


def shelves(boxes, width, gap):
    """Rows of boxes, each as many as go beside each other."""
    row, used = [], 0
    for box in boxes:
        if row and used + box.width > width:
            yield row
            row, used = [], 0
        row.append(box)
        used += box.width + gap
    if row:
        yield row
