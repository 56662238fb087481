"""How a get, an open and the memory of an opened store grow with the number of blocks."""

from math import ceil, floor, log10
from typing import Callable, Dict, List, Optional, Tuple

from drawing import SERIES, WIDTH, Drawing, LogScale
from figures import Figures, label_of

LEFT, RIGHT = 58, WIDTH - 22
PANEL, TITLE, GAP = 140, 30, 24

#: in the order of their markers
SIDES = ["zevk", "unopened", "path", "plain", "lmdb", "cdb"]

#: less memory than a page is reported as a page
PAGE = 4096

Points = Dict[str, List[Tuple[int, float]]]


def _points(figures: Figures, workload: str, value: Callable[[str, int], Optional[float]]) -> Points:
    rows = figures.find(group="growth", workload=workload)
    blocks = sorted({row["documents"] for row in rows})
    points: Points = {}
    for side in figures.sides(SIDES, group="growth", workload=workload):
        found = [(count, value(side, count)) for count in blocks]
        points[side] = [(count, seen) for count, seen in found if seen is not None]
    return {side: line for side, line in points.items() if line}


def gets(figures: Figures) -> Points:
    return _points(figures, "uniform", lambda side, blocks: figures.each(
        group="growth", workload="uniform", side=side, documents=blocks))


def opens(figures: Figures) -> Points:
    return _points(figures, "open", lambda side, blocks: figures.each(
        group="growth", workload="open", side=side, documents=blocks))


def memory(figures: Figures) -> Points:
    def own(side: str, blocks: int) -> Optional[float]:
        seen = figures.middle("own_bytes", group="growth", workload="uniform", side=side, documents=blocks)
        return None if seen is None else max(seen, PAGE)
    return _points(figures, "uniform", own)


def time_text(power: int) -> str:
    """A power of ten of nanoseconds, as people write it."""
    units = [(9, "s"), (6, "ms"), (3, "µs"), (0, "ns")]
    base, unit = next((base, unit) for base, unit in units if power >= base or base == 0)
    return f"{10**max(0, power - base)} {unit}"


def bytes_text(power: int) -> str:
    units = [(9, "GB"), (6, "MB"), (3, "KB"), (0, "B")]
    base, unit = next((base, unit) for base, unit in units if power >= base or base == 0)
    return f"{10**max(0, power - base)} {unit}"


def _legend(drawing: Drawing, sides: List[str], top: float) -> float:
    for at, side in enumerate(sides):
        x, y = 14 + 172 * (at % 2), top + 18 * (at // 2)
        drawing.curve([(x, y), (x + 14, y), (x + 28, y)], SIDES.index(side))
        drawing.text(x + 36, y + 4, label_of(side))
    return top + 18 * ((len(sides) + 1) // 2)


def _limits(points: Points) -> Tuple[float, float]:
    """Whole powers of ten around all values."""
    values = [value for line in points.values() for _, value in line]
    return 10 ** floor(log10(min(values) / 1.1)), 10 ** ceil(log10(max(values) * 1.1))


def _panel(drawing: Drawing, title: str, points: Points, text: Callable[[int], str], top: float) -> float:
    start, end = top + TITLE, top + TITLE + PANEL
    counts = [count for line in points.values() for count, _ in line]
    across = LogScale(min(counts) / 1.3, max(counts) * 1.3, LEFT, RIGHT)
    low, high = _limits(points)
    up = LogScale(low, high, end, start)
    drawing.text(12, top + 18, title, "title")
    for power in up.powers():
        drawing.line(LEFT, up.at(10**power), RIGHT, up.at(10**power), "rule")
        drawing.text(LEFT - 6, up.at(10**power) + 4, text(power), "", "end")
    for power in across.powers():
        drawing.line(across.at(10**power), start, across.at(10**power), end, "rule", 0.5)
        drawing.text(across.at(10**power), end + 16, _count_text(power), "", "middle")
    drawing.line(LEFT, end, RIGHT, end, "axis")
    for side, line in points.items():
        drawing.curve([(across.at(count), up.at(value)) for count, value in line], SIDES.index(side))
    return end + GAP


def _count_text(power: int) -> str:
    digits = str(power).translate(str.maketrans("0123456789", "⁰¹²³⁴⁵⁶⁷⁸⁹"))
    return f"10{digits}"


def draw(figures: Figures, title: str, says: str) -> Optional[Drawing]:
    """Three panels over one axis of blocks."""
    panels = [("a get, uniform", gets(figures), time_text),
              ("an open, to the first document", opens(figures), time_text),
              ("memory beyond the file's pages", memory(figures), bytes_text)]
    if not panels[0][1]:
        return None
    assert len(SIDES) <= len(SERIES)
    drawing = Drawing(title, says)
    drawing.text(12, 18, title, "title")
    y = _legend(drawing, list(panels[0][1]), 38)
    for name, points, text in panels:
        if points:
            y = _panel(drawing, name, points, text, y)
    drawing.text(RIGHT, y + 10, "blocks of ours, documents of the others", "faint", "end")
    drawing.text(RIGHT, y + 26, "memory below a page is drawn as a page, 4 KB", "faint", "end")
    return drawing
