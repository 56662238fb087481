"""How packing and stacking on a Dask cluster scale with the number of workers (examples/dask)."""

import json
from pathlib import Path
from typing import Dict, List, Optional, Tuple

from drawing import WIDTH, Drawing

LEFT, RIGHT = 40, WIDTH - 20
TOP, BOTTOM = 84, 284

#: what is timed, and how it is called
STEPS = [("pack_seconds", "pack"), ("stack_seconds", "stack")]


def speeds(rows: List[Dict[str, float]], step: str) -> List[Tuple[int, float]]:
    """How many times as fast as one worker each number of workers is."""
    alone = next(row[step] for row in rows if row["workers"] == 1)
    return [(int(row["workers"]), alone / row[step]) for row in rows]


def says(told: Dict[str, object]) -> str:
    rows = told["rows"]
    most = int(rows[-1]["workers"])
    parts = [f"{name} {speeds(rows, step)[-1][1]:.2g} times as fast" for step, name in STEPS]
    size = rows[-1]["bytes"] / 1e6
    return (f"{told['segments']} segments, {size:.0f} MB in all: {most} workers {' and '.join(parts)} as one worker "
            "does; the last step of stacking is one worker's alone.")


def sentence(path: Path) -> str:
    """The same of a file."""
    return says(json.loads(path.read_text()))


def draw(path: Path) -> Optional[Drawing]:
    """Two lines beside that of as many times as fast as there are workers."""
    if not path.exists():
        return None
    told = json.loads(path.read_text())
    rows = told["rows"]
    most = int(rows[-1]["workers"])
    drawing = Drawing("Packing and stacking on a cluster", says(told))
    drawing.text(12, 18, drawing.title, "title")
    _legend(drawing)

    def place(workers: float, speed: float) -> Tuple[float, float]:
        return (LEFT + (RIGHT - LEFT) * workers / (most + 0.3), BOTTOM - (BOTTOM - TOP) * speed / (most + 0.3))

    for count in range(1, most + 1):
        x, y = place(count, count)
        drawing.line(LEFT, y, RIGHT, y, "rule")
        drawing.text(LEFT - 8, y + 4, str(count), "", "end")
        drawing.text(x, BOTTOM + 16, str(count), "", "middle")
    drawing.line(LEFT, BOTTOM, RIGHT, BOTTOM, "axis")
    drawing.line(*place(0, 0), *place(most, most), "axis")
    for series, (step, _) in enumerate(STEPS):
        drawing.curve([place(workers, speed) for workers, speed in speeds(rows, step)], series)
    drawing.text(RIGHT, BOTTOM + 34, "workers", "faint", "end")
    return drawing


def _legend(drawing: Drawing) -> None:
    drawing.text(12, 38, "times as fast as one worker", "faint")
    for series, (_, name) in enumerate(STEPS):
        x = 14 + 110 * series
        drawing.curve([(x, 58), (x + 14, 58), (x + 28, 58)], series)
        drawing.text(x + 36, 62, name)
    drawing.line(236, 58, 264, 58, "axis")
    drawing.text(272, 62, "as many")
