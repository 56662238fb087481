"""The plots of times and ratios side by side, and the sentence that says what each shows."""

from typing import Dict, List, Optional, Tuple

import comparisons
import dots
from drawing import Drawing
from figures import Figures, label_of
from growth import time_text as power_text
from plan import DISK, MEMORY, PEERS, PYTHON_SIDES
from texts import between, factor_text, in_sentence, listed, time_text

#: how a side is called that has more than one call
OPENS = {"unopened": "zevk_get", "path": "by path", "zevk": "zevk_open", "checked": "path, checked",
         "reader": "StoreReader", "rust": "Rust, Store"}
OUR_SIDES = ["zevk", "unopened", "path", "checked", "reader", "rust", "python"]

Wanted = Dict[str, object]


def bare(text: str) -> str:
    """Without the marks of code."""
    return text.replace("`", "")


def _series(side: str) -> int:
    if side in ("plain", "py_offsets"):
        return dots.FLOOR
    return dots.OURS if side in OUR_SIDES else dots.OTHER


def _panel(figures: Figures, title: str, sides: List[str], names: Dict[str, str], wanted: Wanted) -> dots.Panel:
    spreads = [(side, figures.spread(side=side, **wanted)) for side in sides]
    return dots.Panel(title, [dots.Dot(names.get(side, label_of(side)), spread, _series(side))
                              for side, spread in spreads if spread is not None])


# ---- reading

def reading_sentence(figures: Figures) -> str:
    """The ratios of gets to LMDB and to tinycdb."""
    found = {side: comparisons.gets(figures, side) for side in ("lmdb", "cdb")}
    texts = {side: [between(ratios, factor_text) for ratios in of_side.values() if ratios]
             for side, of_side in found.items()}
    if any(len(of_side) != 2 for of_side in texts.values()):
        return "Gets of 100 bytes and iterating, beside other libraries."
    (opened, unopened), (opened_cdb, unopened_cdb) = texts.values()
    return (f"A get of 100 bytes takes {opened} of LMDB's time from an opened store and {unopened} by `zevk_get`, "
            f"which opens nothing; of tinycdb's time {opened_cdb} and {unopened_cdb}.")


def reading(figures: Figures, title: str, says: str) -> Optional[Drawing]:
    works = {"uniform": "get, uniform", "hot": "get, hot", "sequence": "get in sequence", "iterate": "iterate"}
    sides = ["zevk", "unopened"] + PEERS + ["plain"]
    panels = [
        _panel(figures, name, sides, {}, dict(group="read", place=DISK, length=100, workload=workload))
        for workload, name in works.items()
    ]
    return dots.draw(title, says, panels, time_text, power_text)


# ---- where ours is slower

def slower_sentence(figures: Figures) -> str:
    works = comparisons.slower_works(figures)
    if not works:
        return "Ours takes longer than another library in no kind of work over documents of 100 bytes."
    work, (worst, *_) = works[0]
    count = len(comparisons.measured(figures))
    return (f"In {len(works)} of {count} kinds of work over documents of 100 bytes ours takes longer than another "
            f"library, most beside {label_of(worst.side)}: {work.name} takes "
            f"{in_sentence(worst.spread, factor_text)} times as long.")


def slower(figures: Figures, title: str, says: str) -> Optional[Drawing]:
    panels = [
        dots.Panel(bare(work.name), [dots.Dot(label_of(one.side), one.spread) for one in slow])
        for work, slow in comparisons.slower_works(figures)
    ]
    return dots.draw(title, says, panels, factor_text, ratio_text)


def ratio_text(power: int) -> str:
    return str(10**power) if power >= 0 else f"{10.0**power:.{-power}f}"


# ---- opening

def _open_wanted(side: str) -> Wanted:
    return dict(group="open", side=side, length=100)


def opening_sentence(figures: Figures) -> str:
    sides = ["unopened", "path", "checked", "zevk", "lmdb"]
    spreads = {side: figures.spread(**_open_wanted(side)) for side in sides}
    known = {side: in_sentence(spread, time_text) for side, spread in spreads.items() if spread is not None}
    if not {"unopened", "zevk", "lmdb"} <= set(known):
        return "Opening a store of 10^6 documents of 100 bytes, and getting the first one."
    by_path = f", and by path {known['path']}" if "path" in known else ""
    checked = f" and `zevk_file_open` {known['checked']} if it does so" if "checked" in known else ""
    return (f"The first get of a file by `zevk_get` takes {known['unopened']}{by_path}; `zevk_open`, which checks the "
            f"whole index, takes {known['zevk']} with a get{checked}, where LMDB takes {known['lmdb']}.")


def opening(figures: Figures, title: str, says: str) -> Optional[Drawing]:
    sides = list(OPENS) + PEERS + ["plain"]
    names = figures.sides(sides, group="open", length=100)
    panel = _panel(figures, "open, and get document 0", names, OPENS, dict(group="open", length=100))
    return dots.draw(title, says, [panel], time_text, power_text)


# ---- appending

def appending_sentence(figures: Figures) -> str:
    found = figures.find(group="append")
    if not found:
        return "Appending documents to a store."
    parts = []
    for place, name in ((MEMORY, "in memory"), (DISK, "on a disk, with the sync")):
        common = dict(group="append", place=place)
        ratios = [(side, figures.ratios(dict(side="path", **common), dict(side=side, **common)))
                  for side in figures.sides(PEERS, **common)]
        told = [f"{in_sentence(ratio, factor_text)} of {label_of(side)}'s" for side, ratio in ratios if ratio]
        parts.append(f"{name} {listed(told)}")
    row = found[0]
    return (f"To append {row['questions']} documents of {row['length']} bytes to {row['documents']}, "
            "`zevk_file_append` copies the blocks that are there, and takes of the others' time "
            f"{'; '.join(parts)}.")


def appending(figures: Figures, title: str, says: str) -> Optional[Drawing]:
    panels = [
        _panel(figures, name, ["path"] + PEERS, {"path": "zevk_file_append"}, dict(group="append", place=place))
        for place, name in ((MEMORY, "in memory"), (DISK, "on a disk, with the sync"))
    ]
    return dots.draw(title, says, panels, time_text, power_text)


# ---- Python

PYTHON_WORKS = {"write": "write, a document", "append": "append, all of it", "open": "open, and get document 0",
                "uniform": "get, uniform", "sequence": "get in sequence", "iterate": "iterate"}


def python_sentence(figures: Figures) -> str:
    """The ratios to py-lmdb."""
    parts, common = [], dict(group="python")
    for workload, name in (("uniform", "a uniform get"), ("iterate", "iterating"), ("write", "writing"),
                           ("open", "an open")):
        row = dict(workload=workload, **common)
        spread = figures.ratios(dict(side="python", **row), dict(side="py_lmdb", **row))
        if spread is not None:
            parts.append(f"{name} {in_sentence(spread, factor_text)}")
    if not parts:
        return "The package for Python, beside what Python's users would pick instead."
    return f"Of py-lmdb's time the package for Python takes for {listed(parts)}."


def python(figures: Figures, title: str, says: str) -> Optional[Drawing]:
    panels = [_panel(figures, name, PYTHON_SIDES, {}, dict(group="python", workload=workload))
              for workload, name in PYTHON_WORKS.items()]
    return dots.draw(title, says, panels, time_text, power_text)


#: name, title, sentence and drawing, in the order of the pages
PICTURES: List[Tuple] = [
    ("reading", "Reading documents of 100 bytes", reading_sentence, reading),
    ("slower", "Where ours is slower: our time by theirs", slower_sentence, slower),
    ("opening", "Opening 10^6 documents of 100 bytes", opening_sentence, opening),
    ("appending", "Appending to a store", appending_sentence, appending),
    ("python", "From Python", python_sentence, python),
]
