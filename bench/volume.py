"""What stores take on disk beyond the bytes of their documents."""

from typing import Dict, List, Optional

from drawing import WIDTH, Drawing
from figures import Figures, label_of
from plan import PEERS

LEFT, RIGHT = 92, WIDTH - 52
ROW, BAR, TITLE = 19, 12, 26
OURS = "zevk"


def excess(figures: Figures, length: int) -> Dict[str, float]:
    """The bytes of each side's files beyond those of the documents, for each document."""
    found = {}
    for side in figures.sides([OURS] + PEERS + ["plain"], group="size"):
        row = figures.find(group="size", side=side, length=length)
        taken = figures.middle("file_bytes", group="size", side=side, length=length)
        if row and taken:
            found[side] = taken / row[0]["documents"] - length
    return found


def _panel(drawing: Drawing, length: int, values: Dict[str, float], top: float) -> float:
    most = max(values.values())
    start, end = top + TITLE, top + TITLE + ROW * len(values)
    drawing.text(12, top + 18, f"documents of {length} bytes", "title")
    for at, (side, value) in enumerate(values.items()):
        y = start + ROW * at + (ROW - BAR) / 2
        width = (RIGHT - LEFT) * max(0.0, value) / most
        if side == OURS:
            drawing.text(LEFT - 8, y + BAR - 2, "Zevkhadun", "title", "end")
            drawing.rectangle(LEFT, y, width, BAR, "mark0")
        else:
            drawing.text(LEFT - 8, y + BAR - 2, label_of(side), "", "end")
            drawing.hatched(LEFT, y, width, BAR, 5)
        drawing.text(LEFT + width + 6, y + BAR - 2, f"{value:.1f}")
    drawing.line(LEFT, start, LEFT, end, "axis")
    return end


def draw(figures: Figures, title: str, says: str) -> Optional[Drawing]:
    """A panel for each length, a bar for each side."""
    lengths: List[int] = figures.lengths(group="size")
    if not lengths:
        return None
    drawing = Drawing(title, says)
    drawing.text(12, 18, title, "title")
    drawing.text(12, 36, "beyond each document's own bytes", "faint")
    y = 40.0
    for length in lengths:
        y = _panel(drawing, length, excess(figures, length), y)
    return drawing
