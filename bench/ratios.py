"""How long ours takes beside each of the others, as ratios: above 1 ours is slower."""

from typing import Dict, List, Optional, Tuple

from drawing import WIDTH, Drawing, LogScale
from figures import Figures, label_of
from plan import DISK, MEMORY, PEERS, PROCESS, READ_NAMES
from texts import factor_text, in_sentence, listed

LEFT, RIGHT = 76, WIDTH - 14
ROW, TITLE = 21, 26

#: a panel: its title, the side that is ours, the other sides' place and ours, and what its rows have in common
Panel = Tuple[str, str, str, str, Dict[str, object]]


def _reads(ours: str, group: str, place: str) -> List[Panel]:
    return [(title, ours, place, place, {"group": group, "workload": workload})
            for workload, title in READ_NAMES.items()]


UNOPENED_PANELS = _reads("unopened", "read", DISK)
OPENED_PANELS = _reads("zevk", "read", DISK)
OTHER_PANELS: List[Panel] = [
    ("first get of a file, by zevk_get", "unopened", DISK, DISK, {"group": "open"}),
    ("open with all checks", "zevk", DISK, DISK, {"group": "open"}),
    ("cold get", "zevk", DISK, DISK, {"group": "cold"}),
    ("get, uniform, eight threads", "zevk", DISK, DISK, {"group": "threads", "threads": 8}),
    ("write, in memory", "zevk", MEMORY, MEMORY, {"group": "write"}),
    ("write and sync, disk", "zevk", DISK, DISK, {"group": "write"}),
]
OUTSIDE_PANELS: List[Panel] = _reads("reader", "memory", PROCESS) + [
    ("write", "reader", PROCESS, PROCESS, {"group": "write"}),
    ("open, which checks the index here", "reader", PROCESS, PROCESS, {"group": "open"}),
    ("stack stores of 1000 documents", "reader", PROCESS, PROCESS, {"group": "stack", "documents": 1000}),
    ("stack stores of 10 documents", "reader", PROCESS, PROCESS, {"group": "stack", "documents": 10}),
]


def ratio(figures: Figures, panel: Panel, side: str, length: int) -> Optional[float]:
    """Our time by theirs, as the median of the rounds' ratios, or None where one is not there."""
    _, ours, place, our_place, common = panel
    mine = dict(side=ours, place=our_place, length=length, **common)
    theirs = dict(side=side, place=place, length=length, **common)
    return figures.ratio(mine, theirs)


def sides_of(figures: Figures, panel: Panel) -> List[str]:
    """The others of a panel, the floor last."""
    _, ours, place, _, common = panel
    return [side for side in figures.sides(PEERS + ["plain"], place=place, **common) if side != ours]


def ratios_of(figures: Figures, panels: List[Panel]) -> List[Tuple[Panel, str, int, float]]:
    """All ratios that there are: of which panel, beside whom, of which length."""
    found = []
    for panel in panels:
        for side in sides_of(figures, panel):
            for length in figures.lengths(place=panel[2], **panel[4]):
                value = ratio(figures, panel, side, length)
                if value:
                    found.append((panel, side, length, value))
    return found


def _legend(drawing: Drawing, lengths: List[int], y: float) -> None:
    x = 12
    drawing.text(x, y, "bytes each:", "faint")
    x += 90
    for at, length in enumerate(lengths):
        drawing.marker(x, y - 4, at)
        drawing.text(x + 8, y, str(length))
        x += 22 + 8 * len(str(length))


def _grid(drawing: Drawing, scale: LogScale, top: float, bottom: float) -> None:
    one = scale.at(1)
    drawing.rectangle(one, top, RIGHT - one, bottom - top, "behind")
    for power in scale.powers():
        x = scale.at(10**power)
        drawing.line(x, top, x, bottom, "axis" if power == 0 else "rule", 1.5 if power == 0 else 1)


def _panel(drawing: Drawing, panel: Panel, values: Dict[Tuple[str, int], float], lengths: List[int], scale: LogScale,
           top: float) -> float:
    sides = list(dict.fromkeys(side for side, _ in values))
    start, end = top + TITLE, top + TITLE + ROW * len(sides)
    drawing.text(12, top + 18, panel[0], "title")
    _grid(drawing, scale, start, end)
    for at, side in enumerate(sides):
        y = start + ROW * (at + 0.5)
        drawing.text(LEFT - 8, y + 4, label_of(side), "", "end")
        drawing.line(LEFT, y + ROW / 2, RIGHT, y + ROW / 2, "rule", 0.5)
        for series, length in enumerate(lengths):
            if (side, length) in values:
                drawing.marker(scale.at(values[side, length]), y + 2.6 * (2 * series - 3) / 2, series, 3.2)
    return end


def _power_text(power: int) -> str:
    return str(10**power) if power >= 0 else f"{10.0**power:.{-power}f}"


def draw(figures: Figures, panels: List[Panel], title: str, says: str) -> Optional[Drawing]:
    """One panel for each work, one row for each of the others, one marker for each length."""
    found = ratios_of(figures, panels)
    if not found:
        return None
    lengths = sorted({length for _, _, length, _ in found})
    least, most = min(value for *_, value in found), max(value for *_, value in found)
    scale = LogScale(min(0.1, least / 1.2), max(10, most * 1.2), LEFT, RIGHT)
    drawing = Drawing(title, says)
    drawing.text(12, 18, title, "title")
    _legend(drawing, lengths, 38)
    drawing.text(scale.at(1) - 6, 58, "ours is faster", "faint", "end")
    drawing.text(scale.at(1) + 6, 58, "slower", "faint")
    y = 58.0
    for panel in panels:
        values = {(side, length): value for other, side, length, value in found if other is panel}
        if values:
            y = _panel(drawing, panel, values, lengths, scale, y)
    for power in scale.powers():
        drawing.text(scale.at(10**power), y + 16, _power_text(power), "", "middle")
    drawing.text(RIGHT, y + 33, "our time by theirs", "faint", "end")
    return drawing


def worst_of(figures: Figures, panels: List[Panel]) -> Dict[str, Tuple[float, Panel, int]]:
    """The largest ratio to each library, with its work and its length; without the floor, which all pay."""
    worst: Dict[str, Tuple[float, Panel, int]] = {}
    for panel, side, length, value in ratios_of(figures, panels):
        if side != "plain" and value > worst.get(side, (0.0,))[0]:
            worst[side] = (value, panel, length)
    return worst


def sentence(figures: Figures, subject: str, panels: List[Panel]) -> str:
    """Beside whom ours never takes longer, and how many times as long it takes at most beside the others."""
    worst = worst_of(figures, panels)
    never = [label_of(side) for side, (value, _, _) in worst.items() if round(value, 2) <= 1]
    parts = []
    for side, (value, panel, length) in worst.items():
        if round(value, 2) > 1:
            _, ours, place, our_place, common = panel
            spread = figures.ratios(dict(side=ours, place=our_place, length=length, **common),
                                    dict(side=side, place=place, length=length, **common))
            parts.append(f"{in_sentence(spread, factor_text)} times {label_of(side)}'s ({panel[0]}, {length} bytes)")
    less = f"less time than {listed(never)} at every length" if never else ""
    more = f"at most {listed(parts)}" if parts else ""
    return f"{subject} takes {', and '.join(filter(None, [less, more]))}."
