#!/usr/bin/env python3
"""Prints what a file of measurements has as tables in Markdown: nanoseconds for each document or open, or
instructions where these were counted.

A figure is the median of the rounds; where its interval is more than 15 % of it wide it follows in brackets.
"""

import argparse
import sys
from pathlib import Path
from typing import Dict, List, Tuple

from figures import Figures, label_of
from plan import BLOCK_EACH, C_SIDES, GROUPS, RATTLE_SIDES
from texts import in_table

HERE = Path(__file__).resolve().parent

#: what tells the rows of a table apart
Work = Tuple[str, str, int, int, int]


def work_of(row: Dict[str, object]) -> Work:
    return (row["workload"], row["place"], row["documents"], row["length"], row["threads"])


def name_of(work: Work) -> str:
    workload, place, documents, length, threads = work
    threads_text = f", threads: {threads}" if workload == "threads" else ""
    return f"{workload}, {place}, {documents} of {length} bytes{threads_text}"


def shown(value: float) -> str:
    return f"{value:.1f}" if value < 100 else f"{value:.0f}"


def sides_of(figures: Figures, group: str) -> List[str]:
    """The sides of a group: those in C and in Rattle first."""
    there = [str(row["side"]) for row in figures.find(group=group)]
    return sorted(dict.fromkeys(there), key=lambda side: side not in C_SIDES + RATTLE_SIDES)


def table_of(figures: Figures, group: str) -> List[str]:
    """A row for each work of a group, a column for each side; an empty place where a side does not do it."""
    rows = figures.find(group=group)
    sides = sides_of(figures, group)
    lines = [f"| {group} | " + " | ".join(label_of(side) for side in sides) + " |", "|---" * (len(sides) + 1) + "|"]
    for work in dict.fromkeys(work_of(row) for row in rows):
        workload, place, documents, length, threads = work
        wanted = dict(group=group, workload=workload, place=place, documents=documents, length=length, threads=threads)
        texts = [in_table(figures.spread(side=side, **wanted), shown) for side in sides]
        lines.append(f"| {name_of(work)} | " + " | ".join(texts) + " |")
    return lines


def main() -> int:
    parser = argparse.ArgumentParser(description=__doc__.splitlines()[0])
    parser.add_argument("measurements", nargs="?", type=Path, default=HERE / "measurements.json")
    figures = Figures(parser.parse_args().measurements)
    print(f"`growth` has blocks of one document (block size {BLOCK_EACH}).\n")
    for group in GROUPS:
        if group != "size" and figures.find(group=group):
            print("\n".join(table_of(figures, group)) + "\n")
    return 0


if __name__ == "__main__":
    sys.exit(main())
