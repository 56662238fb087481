"""Plots of figures as marks on a line, each with the interval of its median."""

from dataclasses import dataclass
from typing import Callable, List, Optional

from drawing import WIDTH, Drawing, LogScale
from figures import Spread

LEFT, RIGHT = 134, WIDTH - 62
ROW, TITLE, LABEL = 19, 26, 48

#: the series of the marks: ours, the others, and the floor
OURS, OTHER, FLOOR = 0, 1, 5


@dataclass(frozen=True)
class Dot:
    """A figure of a side."""

    name: str
    spread: Spread
    series: int = OTHER


@dataclass(frozen=True)
class Panel:
    """The figures of one work."""

    title: str
    dots: List[Dot]


def _scale(panels: List[Panel]) -> LogScale:
    spreads = [dot.spread for panel in panels for dot in panel.dots]
    least, most = min(one.low for one in spreads), max(one.high for one in spreads)
    return LogScale(least / 1.15, most * 1.15, LEFT, RIGHT)


def _dot(drawing: Drawing, dot: Dot, scale: LogScale, y: float, text: Callable[[float], str]) -> None:
    drawing.text(LEFT - 8, y + 4, dot.name, "title" if dot.series == OURS else "", "end")
    drawing.line(scale.at(dot.spread.low), y, scale.at(dot.spread.high), y, "axis", 1.2)
    drawing.marker(scale.at(dot.spread.middle), y, dot.series, 4)
    drawing.text(WIDTH - 8, y + 4, text(dot.spread.middle), "", "end")


def _panel(drawing: Drawing, panel: Panel, scale: LogScale, top: float, text: Callable[[float], str]) -> float:
    start, end = top + TITLE, top + TITLE + ROW * len(panel.dots)
    drawing.text(12, top + 18, panel.title, "title")
    for power in scale.powers():
        drawing.line(scale.at(10**power), start, scale.at(10**power), end, "axis" if power == 0 else "rule")
    for at, dot in enumerate(panel.dots):
        _dot(drawing, dot, scale, start + ROW * (at + 0.5), text)
    return end


def _legend(drawing: Drawing, panels: List[Panel], y: float) -> None:
    there = {dot.series for panel in panels for dot in panel.dots}
    x = 16.0
    for series, name, width in ((OURS, "ours", 52), (OTHER, "others", 62), (FLOOR, "floor", 54)):
        if series in there:
            drawing.marker(x, y - 4, series, 4)
            drawing.text(x + 9, y, name, "faint")
            x += width
    drawing.text(WIDTH - 8, y, "line: half of the rounds", "faint", "end")


def draw(title: str, says: str, panels: List[Panel], text: Callable[[float], str],
         axis: Callable[[int], str]) -> Optional[Drawing]:
    """Panels over one axis, of which each power of ten is as long as the next."""
    panels = [panel for panel in panels if panel.dots]
    if not panels:
        return None
    drawing = Drawing(title, says)
    drawing.text(12, 18, title, "title")
    _legend(drawing, panels, 38)
    scale, y = _scale(panels), 42.0
    for panel in panels:
        y = _panel(drawing, panel, scale, y, text)
    for power in _labelled(scale):
        drawing.text(scale.at(10**power), y + 16, axis(power), "faint", "middle")
    return drawing


def _labelled(scale: LogScale) -> List[int]:
    """The powers of ten that have a label: as many as there is room for."""
    step = 1
    while scale.at(10**step) - scale.at(1) < LABEL:
        step += 1
    return scale.powers()[::step]
