"""What a file of measurements has: medians of the rounds of each row, and how well the rounds tell them."""

import json
from math import comb
from pathlib import Path
from statistics import median
from typing import Dict, Iterable, List, NamedTuple, Optional, Tuple

#: how sides are called in plots and tables
LABELS = {
    "zevk": "zevk_locate",
    "unopened": "zevk_get",
    "reader": "reader",
    "disk": "disk",
    "log": "log",
    "lmdb": "LMDB",
    "lmdb_cursor": "LMDB, by a cursor",
    "sqlite": "SQLite",
    "leveldb": "LevelDB",
    "rocksdb": "RocksDB",
    "cdb": "tinycdb",
    "plain": "floor",
    "path": "by path",
    "checked": "by path, checked",
    "ranged": "zevk_get_in",
    "plain_ranged": "floor",
    "python": "zevkhadun",
    "py_sqlite": "sqlite3",
    "py_gnu": "dbm.gnu",
    "py_lmdb": "py-lmdb",
    "py_offsets": "dict over mmap",
    "rust": "Rust",
    "program": "zevkhadun",
    "shell_sqlite": "sqlite3",
    "cat": "cat",
}

#: a row is even if the ends of its interval lie at most this share of the median apart
EVEN = 0.15

#: with which chance at most the median lies outside of its interval, where there are enough rounds
OUTSIDE = 0.05


def label_of(side: str) -> str:
    return LABELS.get(side, side)


class Spread(NamedTuple):
    """The median of some values, and between which two of them it lies."""

    low: float
    middle: float
    high: float

    @property
    def share(self) -> float:
        """How far apart the ends of the interval lie, as a share of the median."""
        return (self.high - self.low) / self.middle if self.middle else 0.0

    @property
    def is_even(self) -> bool:
        return self.share <= EVEN


def outer_values(count: int) -> int:
    """How many of this count of sorted values lie outside of the interval of their median, at each of its ends.

    Of values that come one after the other from any one distribution, the median of that lies below the first value of
    the interval with a chance of at most half of OUTSIDE: that of as few heads where a coin is thrown for each value.
    With five values or fewer the interval is all of them, and the chance is larger.
    """
    chance = 0.0
    for heads in range(count):
        chance += comb(count, heads) / 2**count
        if 2 * chance > OUTSIDE:
            return max(0, heads - 1)
    return 0


def spread_of(values: List[float]) -> Spread:
    """The median, and the interval that its order statistics give."""
    sorted_values, outer = sorted(values), outer_values(len(values))
    return Spread(sorted_values[outer], median(sorted_values), sorted_values[-1 - outer])


def each_of(taken: Dict[str, int]) -> float:
    """Nanoseconds for each document, or each open, or instructions, where these were counted. A write ends when the
    system was asked to keep it, where that is timed by itself."""
    cost = taken["instructions"] if "instructions" in taken else taken["ns"] + taken.get("sync_ns", 0)
    return cost / max(1, taken["count"])


class Figures:
    """The rows of one file of measurements."""

    def __init__(self, path: Path) -> None:
        self.whole = json.loads(path.read_text())
        self.rows: List[Dict[str, object]] = self.whole["rows"]

    def find(self, **wanted: object) -> List[Dict[str, object]]:
        """The rows that have all of these."""
        return [row for row in self.rows if all(row[key] == value for key, value in wanted.items())]

    def rounds(self, **wanted: object) -> List[Dict[str, int]]:
        """The rounds of the one such row; none if there isn't exactly one."""
        rows = self.find(**wanted)
        return rows[0]["rounds"] if len(rows) == 1 else []

    def middle(self, key: str, **wanted: object) -> Optional[float]:
        """The median over the rounds of the one such row, or None where there is none."""
        found = [taken[key] for taken in self.rounds(**wanted) if key in taken]
        return median(found) if found else None

    def spread(self, **wanted: object) -> Optional[Spread]:
        """Nanoseconds for each document, or each open: the median of the rounds and its interval."""
        rounds = self.rounds(**wanted)
        return spread_of([each_of(taken) for taken in rounds]) if rounds else None

    def share_of(self, row: Dict[str, object]) -> float:
        """How far apart the ends of the interval of a row's median lie, as a share of it."""
        return spread_of([each_of(taken) for taken in row["rounds"]]).share

    def each(self, **wanted: object) -> Optional[float]:
        """Nanoseconds for each document, or each open: the median of the rounds."""
        spread = self.spread(**wanted)
        return None if spread is None else spread.middle

    def pairs(self, mine: Dict[str, object], theirs: Dict[str, object]) -> List[Tuple[float, float]]:
        """Each round of the one row with the same round of the other."""
        rounds = zip(self.rounds(**mine), self.rounds(**theirs))
        return [(each_of(own), each_of(other)) for own, other in rounds]

    def ratios(self, mine: Dict[str, object], theirs: Dict[str, object]) -> Optional[Spread]:
        """The rounds' ratios: their median and its interval."""
        found = [own / other for own, other in self.pairs(mine, theirs)]
        return spread_of(found) if found else None

    def differences(self, mine: Dict[str, object], theirs: Dict[str, object]) -> Optional[Spread]:
        """By how much each round of the one row takes longer than the same round of the other."""
        found = [own - other for own, other in self.pairs(mine, theirs)]
        return spread_of(found) if found else None

    def ratio(self, mine: Dict[str, object], theirs: Dict[str, object]) -> Optional[float]:
        """The median of the rounds' ratios."""
        spread = self.ratios(mine, theirs)
        return None if spread is None else spread.middle

    def lengths(self, **wanted: object) -> List[int]:
        return sorted({row["length"] for row in self.find(**wanted)})

    def sides(self, order: Iterable[str], **wanted: object) -> List[str]:
        """The sides of these rows: in this order, and then those that were built outside."""
        there = {row["side"] for row in self.find(**wanted)}
        known = [side for side in order if side in there]
        return known + sorted(there - set(known) - set(LABELS))
