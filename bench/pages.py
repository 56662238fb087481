#!/usr/bin/env python3
"""Writes what the documents have from the measurements, or says where they differ.

It is between the lines `<!-- figures: NAME -->` and `<!-- end of figures -->`: a table, or a paragraph.
"""

import argparse
import re
import sys
from pathlib import Path
from typing import Callable, Dict, List, Match

import comparisons
import front
import goals
import plot
import scaling
import tables
from figures import Figures
from texts import between, factor_text

HERE = Path(__file__).resolve().parent
TOP = HERE.parent
MISSING = ["Not measured yet: [bench/measurements.json](../bench/measurements.json) has no such rows."]

#: folders without documents of ours
SKIPPED = {"out", "target", "dist", ".git"}

Lines = List[str]
Made = Callable[[Figures], Lines]


def without_empty(lines: Lines) -> Lines:
    """A table without the columns that have no figure. Tables below each other are parted by an empty line."""
    if "" in lines:
        at = lines.index("")
        return without_empty(lines[:at]) + [""] + without_empty(lines[at + 1:])
    rows = [line.strip("|").split("|") for line in lines]
    kept = [at for at in range(len(rows[0])) if any(row[at].strip() for row in rows[2:])]
    return ["|" + "|".join(row[at] for at in kept) + "|" for row in rows]


def table(made: Made) -> Made:
    def part(figures: Figures) -> Lines:
        lines = made(figures)
        return without_empty(lines) if lines else MISSING
    return part


def paragraph(told: Callable[[Figures], str]) -> Made:
    return lambda figures: plot.wrapped(told(figures))


def _pictures_of(figures: Figures) -> Lines:
    """Each plot that docs/PERFORMANCE.md shows, after the sentence that says what it shows."""
    lines: Lines = []
    for name, drawing in plot.plots_of(figures, HERE / "none"):
        lines += [*plot.wrapped(drawing.says), "", f"![{drawing.title}](plots/{name}.svg)", ""]
    return lines[:-1]


def _program(figures: Figures) -> str:
    shares = tables.program_shares(figures)
    if not shares:
        return "`pack` reads all lines and copies them into their blocks."
    return (f"`pack` takes {between(shares, factor_text)} times as long as a copy of the bytes: the end of each line "
            "is searched, and each line is copied into its block with a start in the table. On a disk it also waits "
            "for the syncs.")


PARTS: Dict[str, Made] = {
    "front": front.front,
    "machine": paragraph(plot.machine_sentence),
    "moment": paragraph(plot.moment_sentence),
    "spread": paragraph(plot.spread_sentence),
    "plots": _pictures_of,
    "goals": table(goals.goals),
    "slower": paragraph(comparisons.slower),
    "reading": table(tables.read),
    "ratios": table(tables.ratios),
    "lengths": table(tables.lengths),
    "instructions": table(tables.instructions),
    "opening": table(tables.opening),
    "other work": table(tables.other),
    "writing": table(tables.writing),
    "appending": table(tables.appending),
    "ranges": table(tables.ranges),
    "growth": table(tables.growing),
    "size": table(tables.sizes),
    "tantivy": table(tables.beside_tantivy),
    "python": table(tables.python),
    "python calls": table(tables.python_calls),
    "python moment": paragraph(lambda figures: plot.rough_sentence(figures, "python")),
    "program": table(tables.program),
    "packing": paragraph(_program),
    "log": table(tables.log),
    "log reading": table(tables.log_reading),
    "long log": paragraph(tables.long_log),
    "beside lmdb": paragraph(lambda figures: comparisons.beside(figures, ["lmdb"])),
    "beside cdb": paragraph(lambda figures: comparisons.beside(figures, ["cdb"])),
    "beside logs": paragraph(lambda figures: comparisons.beside(figures, ["rocksdb", "leveldb"])),
    "scaling": paragraph(lambda figures: scaling.sentence(HERE / "scaling.json")),
}

#: what is between the two lines
PLACE = re.compile(r"^<!-- figures: ([a-z ]+) -->\n.*?^<!-- end of figures -->\n", re.M | re.S)


def filled(text: str, figures: Figures) -> str:
    """The page with each of its parts made again."""
    def part(found: Match[str]) -> str:
        lines = "\n".join(PARTS[found[1]](figures))
        return f"<!-- figures: {found[1]} -->\n\n{lines}\n\n<!-- end of figures -->\n"

    return PLACE.sub(part, text)


def pages() -> List[Path]:
    """The documents that have such parts."""
    found = (path for path in sorted(TOP.rglob("*.md")) if not SKIPPED & set(path.relative_to(TOP).parts))
    return [path for path in found if PLACE.search(path.read_text())]


def main() -> int:
    parser = argparse.ArgumentParser(description=__doc__.splitlines()[0])
    parser.add_argument("measurements", nargs="?", type=Path, default=HERE / "measurements.json")
    parser.add_argument("--check", action="store_true", help="write nothing; fail if a page has other figures")
    given = parser.parse_args()
    figures = Figures(given.measurements)
    differ = 0
    for page in pages():
        text = page.read_text()
        made = filled(text, figures)
        if made != text and given.check:
            print(f"{page.relative_to(TOP)}: it has other figures than {given.measurements.name}", file=sys.stderr)
            differ += 1
        elif made != text:
            page.write_text(made)
    return 1 if differ else 0


if __name__ == "__main__":
    sys.exit(main())
