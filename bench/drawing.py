"""Drawings as SVG: readable in light and dark, without colours, and on a narrow screen."""

from math import log10
from typing import List, Sequence, Tuple
from xml.sax.saxutils import escape

#: units across; at this width on a screen a unit is a pixel, and text has 12
WIDTH = 360

#: how much larger a drawing is where there is room
SCALE = 1.5

#: colours that differ for the colour blind too, on light and on dark paper, each with a marker and a dash of its own
SERIES = [
    ("#0072b2", "#56b4e9", "circle", ""),
    ("#b34700", "#ff9a4d", "square", "6 3"),
    ("#007a59", "#2fc79a", "triangle", "2 3"),
    ("#a0497a", "#e39bc7", "diamond", "9 3 2 3"),
    ("#7a5c00", "#f0d442", "cross", "4 2 1 2"),
    ("#444444", "#c8c8c8", "plus", "1 2"),
]

_LIGHT = {"paper": "#ffffff", "ink": "#1b1f24", "faint": "#57606a", "rule": "#d0d7de", "behind": "#f0f0f0"}
_DARK = {"paper": "#0d1117", "ink": "#e6edf3", "faint": "#9aa4ae", "rule": "#30363d", "behind": "#1c2128"}


def _theme(colours: dict, shade: int) -> str:
    rules = [
        f".paper{{fill:{colours['paper']}}}",
        f"text{{fill:{colours['ink']}}}",
        f".faint{{fill:{colours['faint']}}}",
        f".rule{{stroke:{colours['rule']}}}",
        f".axis{{stroke:{colours['ink']}}}",
        f".behind{{fill:{colours['behind']}}}",
    ]
    for at, series in enumerate(SERIES):
        rules.append(f".line{at}{{stroke:{series[shade]}}}.mark{at}{{fill:{series[shade]};stroke:{series[shade]}}}")
        rules.append(f".open{at}{{fill:{colours['paper']};stroke:{series[shade]}}}")
    return "".join(rules)


_STYLE = (
    "text{font:12px system-ui,-apple-system,'Segoe UI',sans-serif}.title{font-weight:600}"
    "path,line,polyline{fill:none}"
    + _theme(_LIGHT, 0)
    + "@media (prefers-color-scheme:dark){" + _theme(_DARK, 1) + "}"
)


def _number(value: float) -> str:
    return f"{value:.1f}".rstrip("0").rstrip(".")


class Drawing:
    """Shapes, one over the other, and the text for those who do not see them."""

    def __init__(self, title: str, says: str) -> None:
        self.title = title
        self.says = says
        self.shapes: List[str] = []
        self.height = 0.0

    def text(self, x: float, y: float, words: str, kind: str = "", anchor: str = "start") -> None:
        self.shapes.append(
            f'<text x="{_number(x)}" y="{_number(y)}" class="{kind}" text-anchor="{anchor}">{escape(words)}</text>')
        self.height = max(self.height, y + 8)

    def line(self, x1: float, y1: float, x2: float, y2: float, kind: str, width: float = 1) -> None:
        self.shapes.append(f'<line x1="{_number(x1)}" y1="{_number(y1)}" x2="{_number(x2)}" y2="{_number(y2)}" '
                           f'class="{kind}" stroke-width="{width}"/>')

    def rectangle(self, x: float, y: float, width: float, height: float, kind: str) -> None:
        self.shapes.append(f'<rect x="{_number(x)}" y="{_number(y)}" width="{_number(width)}" '
                           f'height="{_number(height)}" class="{kind}"/>')

    def curve(self, points: Sequence[Tuple[float, float]], series: int) -> None:
        """A line of its own dash through these points, with its markers."""
        places = " ".join(f"{_number(x)},{_number(y)}" for x, y in points)
        dash = SERIES[series][3]
        self.shapes.append(f'<polyline points="{places}" class="line{series}" stroke-width="1.8" '
                           f'stroke-dasharray="{dash or "none"}"/>')
        for x, y in points:
            self.marker(x, y, series)

    def marker(self, x: float, y: float, series: int, size: float = 3.6) -> None:
        shape = SERIES[series][2]
        self.shapes.append(_MARKERS[shape](x, y, size, series))

    def hatched(self, x: float, y: float, width: float, height: float, series: int) -> None:
        """A bar with lines across, told from others without its colour."""
        kind = f"line{series}"
        self.shapes.append(f'<rect x="{_number(x)}" y="{_number(y)}" width="{_number(width)}" '
                           f'height="{_number(height)}" fill="url(#hatch{series})" class="{kind}"/>')

    def svg(self) -> str:
        height, says = self.height + 4, escape(self.says.replace("`", ""))
        hatches = "".join(
            f'<pattern id="hatch{at}" width="6" height="6" patternUnits="userSpaceOnUse" '
            f'patternTransform="rotate(45)"><line x1="0" y1="0" x2="0" y2="6" class="line{at}" stroke-width="4"/>'
            "</pattern>" for at in range(len(SERIES)))
        return (
            f'<svg xmlns="http://www.w3.org/2000/svg" viewBox="0 0 {WIDTH} {_number(height)}" '
            f'width="{_number(WIDTH * SCALE)}" height="{_number(height * SCALE)}" role="img">'
            f"<title>{escape(self.title)}</title><desc>{says}</desc>"
            f"<style>{_STYLE}</style><defs>{hatches}</defs>"
            f'<rect width="{WIDTH}" height="{_number(height)}" class="paper"/>\n'
            + "\n".join(self.shapes)
            + "\n</svg>\n"
        )


def _polygon(points: Sequence[Tuple[float, float]], kind: str) -> str:
    places = " ".join(f"{_number(x)},{_number(y)}" for x, y in points)
    return f'<polygon points="{places}" class="{kind}" stroke-width="1.6"/>'


def _cross(x: float, y: float, size: float, series: int) -> str:
    return (f'<path d="M{_number(x - size)} {_number(y - size)}L{_number(x + size)} {_number(y + size)}'
            f'M{_number(x - size)} {_number(y + size)}L{_number(x + size)} {_number(y - size)}" '
            f'class="line{series}" stroke-width="1.8"/>')


def _plus(x: float, y: float, size: float, series: int) -> str:
    return (f'<path d="M{_number(x - size)} {_number(y)}L{_number(x + size)} {_number(y)}'
            f'M{_number(x)} {_number(y - size)}L{_number(x)} {_number(y + size)}" '
            f'class="line{series}" stroke-width="1.8"/>')


_MARKERS = {
    "circle": lambda x, y, size, at:
        f'<circle cx="{_number(x)}" cy="{_number(y)}" r="{size}" class="mark{at}"/>',
    "square": lambda x, y, size, at:
        _polygon([(x - size, y - size), (x + size, y - size), (x + size, y + size), (x - size, y + size)], f"open{at}"),
    "triangle": lambda x, y, size, at:
        _polygon([(x, y - size), (x + size, y + size), (x - size, y + size)], f"mark{at}"),
    "diamond": lambda x, y, size, at:
        _polygon([(x, y - size - 1), (x + size + 1, y), (x, y + size + 1), (x - size - 1, y)], f"open{at}"),
    "cross": _cross,
    "plus": _plus,
}


class LogScale:
    """Places of numbers on an axis, each power of ten as long as the next."""

    def __init__(self, least: float, most: float, start: float, end: float) -> None:
        self.low, self.high = log10(least), log10(most)
        self.start, self.end = start, end

    def at(self, value: float) -> float:
        share = (log10(value) - self.low) / (self.high - self.low)
        return self.start + share * (self.end - self.start)

    def powers(self) -> List[int]:
        """The whole powers of ten within."""
        return [power for power in range(-12, 16) if self.low - 1e-9 <= power <= self.high + 1e-9]
