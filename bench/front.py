"""The table of times on the first page, with the sentences below it: medians with two digits."""

from datetime import datetime
from typing import Dict, List, NamedTuple, Optional, Tuple

import plot
import volume
from figures import Figures, label_of
from plan import DISK
from texts import listed, two_digits, two_digit_time

LENGTH = 100

#: the two ways of ours, and the libraries beside them
COLUMNS = {"zevk": "opened once", "unopened": "without opening", "lmdb": "LMDB", "sqlite": "SQLite", "cdb": "tinycdb"}

#: the groups of which this page has figures
GROUPS = ["read", "cold", "open", "write", "append", "size", "python", "growth", "log"]

Wanted = Dict[str, object]


class Work(NamedTuple):
    """A row of the table: its name, what its rows of measurements have, and who does it by a call of another side."""

    name: str
    wanted: Wanted
    instead: Dict[str, str] = {}


WORKS = [
    Work("get at random", dict(group="read", place=DISK, workload="uniform")),
    Work("get, one after the other", dict(group="read", place=DISK, workload="sequence")),
    Work("iterate, each", dict(group="read", place=DISK, workload="iterate")),
    Work("get at random, not in the page cache", dict(group="cold")),
    Work("open, with the first get", dict(group="open")),
    Work("write and sync on a disk, each", dict(group="write", place=DISK)),
    Work("append 1000 more, and sync", dict(group="append", place=DISK), {"zevk": "path"}),
]


def row_of(name: str, values: List[Optional[float]], texts: List[str]) -> str:
    """A row in which the least is bold, also where others look like it."""
    known = [value for value in values if value is not None]
    least = texts[values.index(min(known))] if known else ""
    return f"| {name} | " + " | ".join(f"**{text}**" if text and text == least else text for text in texts) + " |"


def table(figures: Figures) -> List[str]:
    lines = ["| | " + " | ".join(COLUMNS.values()) + " |", "|---" * (len(COLUMNS) + 1) + "|"]
    for work in WORKS:
        values = [figures.each(side=work.instead.get(side, side), length=LENGTH, **work.wanted) for side in COLUMNS]
        if any(value is not None for value in values):
            texts = ["" if value is None else two_digit_time(value) for value in values]
            lines.append(row_of(work.name, values, texts))
    beyond = volume.excess(figures, LENGTH)
    if beyond:
        values = [beyond.get(side) for side in COLUMNS]
        texts = ["" if value is None else two_digits(value) for value in values]
        lines.append(row_of("bytes beside each document's own", values, texts))
    return lines


def dates(figures: Figures) -> str:
    """The days on which the groups of this page were measured."""
    whole = figures.whole
    told = [one for one in whole.get("earlier", []) if set(one["groups"]) & set(GROUPS)]
    days = sorted({datetime.fromisoformat(one["before"]["time"]).date() for one in [whole, *told]})
    return listed([f"{day.day} {day:%B} {day.year}" for day in days])


def spread_line(figures: Figures) -> str:
    """The spread, the machine and the date."""
    machine = figures.whole["machine"]
    shares = plot.shares_of(figures)
    return (f"Medians of {figures.whole['rounds']} rounds; in the median row their interval of 95 % spans "
            f"{shares[len(shares) // 2]:.0%}. {machine['processor'].replace('(R)', '')}, {machine['cores']} cores, "
            f"{dates(figures)}.")


def beside(figures: Figures, sides: List[str], wanted: Wanted) -> str:
    """The times of some sides, each with its name."""
    found = [(side, figures.each(side=side, **wanted)) for side in sides]
    return ", ".join(f"{label_of(side)} {two_digit_time(value)}" for side, value in found if value is not None)


def of_ours(figures: Figures, side: str, text: str, others: Tuple[str, ...], **wanted: object) -> str:
    """A sentence with a time of ours, and in brackets those of others; nothing where ours isn't there."""
    ours = figures.each(side=side, **wanted)
    if ours is None:
        return ""
    told = beside(figures, list(others), wanted)
    return f" {text} {two_digit_time(ours)}" + (f" ({told})." if told else ".")


def sentences(figures: Figures) -> str:
    """Where the table doesn't reach: Python, large indexes, logs."""
    return "".join([
        of_ours(figures, "python", "From Python a get at random takes", ("py_lmdb", "py_sqlite"),
                group="python", workload="uniform"),
        of_ours(figures, "zevk", "`zevk_open` checks the whole index, so its time grows with the file: for a million "
                "blocks it takes", ("lmdb",), group="growth", workload="open", documents=10**6),
        " `zevk_file_append` copies the store, so for records that keep coming take the log.",
        of_ours(figures, "log", "A log of a million records opens in", ("lmdb", "sqlite", "rocksdb"),
                group="log", workload="log_open"),
        " [Every figure, with its spread](docs/PERFORMANCE.md).",
    ]).strip()


def front(figures: Figures) -> List[str]:
    """The part of README.md."""
    return [*table(figures), "", *plot.wrapped(spread_line(figures)), "", *plot.wrapped(sentences(figures))]
