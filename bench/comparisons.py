"""The works in which ours is compared with other libraries, over documents of 100 bytes."""

from dataclasses import dataclass, field
from typing import Dict, List, NamedTuple

from figures import Figures, Spread, label_of
from plan import DISK, FULL, MEMORY, ORDERS, PEERS
from texts import factor_text, in_sentence, listed

LENGTH = 100

#: what a row has, its side aside
Wanted = Dict[str, object]


class Beside(NamedTuple):
    """Our time by another library's."""

    side: str
    spread: Spread


@dataclass(frozen=True)
class Work:
    """Some workloads of one side of ours, beside the same workloads of the others."""

    name: str
    ours: str
    rows: List[Wanted] = field(default_factory=list)

    def beside(self, figures: Figures, side: str) -> List[Beside]:
        """The ratios to one library, for each of the rows that it has."""
        found = []
        for row in self.rows:
            spread = figures.ratios(dict(side=self.ours, **row), dict(side=side, **row))
            if spread is not None:
                found.append(Beside(side, spread))
        return found

    def worst(self, figures: Figures) -> List[Beside]:
        """The largest ratio to each library."""
        each = [self.beside(figures, side) for side in PEERS]
        return [max(found, key=lambda one: one.spread.middle) for found in each if found]

    def slower(self, figures: Figures) -> List[Beside]:
        """Beside whom ours takes longer, at its worst, the largest ratio first."""
        slow = [one for one in self.worst(figures) if round(one.spread.middle, 2) > 1]
        return sorted(slow, key=lambda one: -one.spread.middle)


def rows(workloads: List[str], **common: object) -> List[Wanted]:
    """A row for each of these workloads."""
    return [dict(workload=workload, length=LENGTH, **common) for workload in workloads]


def log_rows(place: str) -> List[Wanted]:
    """Appends to a log: a row for each batch, and one where only the end is synced."""
    batches = [row for batch in FULL.logged[place]
               for row in rows(["log_append"], group="log", place=place, questions=batch)]
    return batches + rows(["log_synced_once"], group="log", place=place)


PAGES = dict(group="read", place=DISK)
WORKS = [
    Work("gets from an opened store (`zevk_locate`)", "zevk", rows(ORDERS, **PAGES)),
    Work("iterating over an opened store", "zevk", rows(["iterate"], **PAGES)),
    Work("gets that open nothing (`zevk_get`)", "unopened", rows(ORDERS, **PAGES)),
    Work("iterating without opening (`zevk_get_run`)", "unopened", rows(["iterate"], **PAGES)),
    Work("an open with all checks (`zevk_open`)", "zevk", rows(["open"], group="open")),
    Work("an open by path (`zevk_file_open`)", "path", rows(["open"], group="open")),
    Work("an open by path with all checks", "checked", rows(["open"], group="open")),
    Work("gets by path", "path", rows(ORDERS, **PAGES)),
    Work("the first get of a file by `zevk_get`", "unopened", rows(["open"], group="open")),
    Work("gets from a file that is not in memory", "zevk", rows(["cold"], group="cold")),
    Work("gets of eight threads at once", "zevk", rows(["threads"], group="threads", threads=8)),
    Work("writing to memory", "zevk", rows(["write"], group="write", place=MEMORY)),
    Work("writing to a disk with the sync", "zevk", rows(["write"], group="write", place=DISK)),
    Work("an append in memory (`zevk_file_append`)", "path", rows(["append"], group="append", place=MEMORY)),
    Work("an append on a disk with the sync", "path", rows(["append"], group="append", place=DISK)),
    Work("appending to a log in memory", "log", log_rows(MEMORY)),
    Work("appending to a log on a disk", "log", log_rows(DISK)),
    Work("opening a log of 10^6 records", "log", rows(["log_open"], group="log")),
    Work("gets from a log of 10^6 records", "log", rows(["log_uniform"], group="log")),
]


def measured(figures: Figures) -> List[Work]:
    """The works for which there are figures."""
    return [work for work in WORKS if work.worst(figures)]


def slower_works(figures: Figures) -> List[tuple]:
    """The works in which ours takes longer than another library, the worst first, each with these libraries."""
    found = [(work, slow) for work in WORKS if (slow := work.slower(figures))]
    return sorted(found, key=lambda pair: -pair[1][0].spread.middle)


def slower(figures: Figures) -> str:
    """One sentence: in which works ours takes longer than whom, and how many times as long at most."""
    parts = []
    for work, slow in slower_works(figures):
        beside = ", ".join(f"{label_of(one.side)} {in_sentence(one.spread, factor_text)}" for one in slow)
        parts.append(f"{work.name}: {beside}")
    if not parts:
        return "Ours takes longer than another library in no work that was measured."
    return (f"Over documents of {LENGTH} bytes ours takes longer than these libraries, with the largest ratio to each: "
            f"{'; '.join(parts)}.")


def beside(figures: Figures, sides: List[str]) -> str:
    """Without figures: in which works ours takes less time than these libraries, and in which more."""
    less, more = [], []
    for work in WORKS:
        found = [one.spread.middle for side in sides for one in work.beside(figures, side)]
        if found and max(found) <= 1:
            less.append(work.name)
        elif found and max(found) > 1.005:
            more.append(work.name)
    names = listed([label_of(side) for side in sides])
    verb = "need" if len(sides) > 1 else "needs"
    text = f"For documents of {LENGTH} bytes ours takes less time than {names} in {listed(less)}" if less else ""
    if more:
        text += (f"; {names} {verb} less, in some row at least, for {listed(more)}" if less
                 else f"{names} {verb} less time, in some row at least, for {listed(more)}")
    return f"{text} ([the figures](PERFORMANCE.md))."


def gets(figures: Figures, side: str) -> Dict[str, List[Spread]]:
    """The ratios of gets to one library: from an opened store, and of those that open nothing."""
    opened, unopened = WORKS[0], WORKS[2]
    return {work.ours: [one.spread for one in work.beside(figures, side)] for work in (opened, unopened)}
