"""The goals of speed in one table: each with its figure, whether it is met, and why not."""

from dataclasses import dataclass
from typing import Callable, Dict, List, Optional

from figures import Figures, Spread
from plan import DISK, FULL, LOG_PEERS, MEMORY
from texts import factor_text, in_table, number_text

GETS = {"uniform": "uniform", "hot": "hot", "zipf": "zipf", "sequence": "in sequence"}
BY_CURSOR = {"sequence": "in sequence"}
SCATTERED = {order: told for order, told in GETS.items() if order not in BY_CURSOR}
ITERATE = {"iterate": "iterate"}

WALK = "each get decodes the index from its top"
BYTES = "both only read each document's bytes"
LAYERS = "each get decodes eight layers of the index"
OBJECT = "each document becomes an object in new memory"
CHECKS = "it looks at more than the floor does before the get"
UNKNOWN = "the cause was not looked for yet"
SUM = "each batch has a sum, which LMDB has not"
SEALS = "each 8 MiB of the tail become a segment on the way, with syncs of their own"

Row = Dict[str, object]


#: by how much a figure may exceed its goal: a machine that others share shows no smaller difference
MARGIN = 0.05


def verdict(spread: Optional[Spread], most: float) -> str:
    """Whether the figure is at most so large and the margin, as far as its interval tells."""
    if spread is None:
        return "not measured"
    if spread.high <= most * (1 + MARGIN):
        return "met"
    return "missed" if spread.low > most * (1 + MARGIN) else "open"


@dataclass(frozen=True)
class Goal:
    """A figure that is to be at most so large, and why it is larger where it is."""

    name: str
    most: float
    figure: Callable[[Figures], Optional[Spread]]
    reason: str
    text: Callable[[float], str] = factor_text
    unit: str = ""

    def line(self, figures: Figures) -> str:
        """The goal's row of the table."""
        spread = self.figure(figures)
        told = verdict(spread, self.most)
        reason = self.reason if told == "missed" else ""
        return f"| {self.name} | {self.most:g}{self.unit} | {in_table(spread, self.text)} | {told} | {reason} |"


def _ratio(ours: Row, theirs: Row) -> Callable[[Figures], Optional[Spread]]:
    return lambda figures: figures.ratios(ours, theirs)


def _reads(ours: str, theirs: str, name: str, most: float, workloads: Dict[str, str], reason: str) -> List[Goal]:
    """The same goal for some workloads over documents of 100 bytes in the page cache."""
    common = dict(group="read", place=DISK, length=100)
    return [
        Goal(f"{name}, {told}", most, _ratio(dict(side=ours, workload=workload, **common),
                                             dict(side=theirs, workload=workload, **common)), reason)
        for workload, told in workloads.items()
    ]


def _opening() -> List[Goal]:
    common = dict(group="open", length=100)
    pairs = [("unopened", "plain", "`zevk_get` / floor", 1.2, CHECKS), ("path", "lmdb", "by path / LMDB", 1.0, UNKNOWN)]
    return [
        Goal(f"{name}, to the first document", most,
             _ratio(dict(side=ours, **common), dict(side=theirs, **common)), reason)
        for ours, theirs, name, most, reason in pairs
    ]


def _cold() -> List[Goal]:
    return [
        Goal(f"by path / LMDB, get, cold, of {length} bytes", 1.2,
             _ratio(dict(group="cold", side="path", length=length), dict(group="cold", side="lmdb", length=length)),
             UNKNOWN)
        for length in (100, 1000, 20000)
    ]


def _large() -> List[Goal]:
    """Gets and opens of 10^7 blocks."""
    common = dict(group="growth", workload="uniform", documents=10**7)
    gets = [("unopened", "`zevk_get` / LMDB", 1.0, LAYERS), ("path", "by path / LMDB", 0.9, UNKNOWN)]
    lmdb = dict(side="lmdb", **common)
    return [
        *(Goal(f"{name}, get, 10^7 blocks", most, _ratio(dict(side=side, **common), lmdb), reason)
          for side, name, most, reason in gets),
        Goal("by path, to the first document, 10^7 blocks", 50_000,
             lambda figures: figures.spread(group="growth", workload="open", side="path", documents=10**7), UNKNOWN,
             number_text, " ns"),
    ]


def _beside_best(place: str, batch: int) -> Callable[[Figures], Optional[Spread]]:
    """A log of ours beside the library that is ahead of the others."""
    def figure(figures: Figures) -> Optional[Spread]:
        common = dict(group="log", workload="log_append", place=place, questions=batch)
        found = [figures.ratios(dict(side="log", **common), dict(side=side, **common)) for side in LOG_PEERS]
        return max(filter(None, found), key=lambda spread: spread.middle, default=None)
    return figure


def _log() -> List[Goal]:
    places = {MEMORY: "in memory", DISK: "on a disk"}
    return [
        Goal(f"a log / the best other, {batch} a sync, {places[place]}", 1.1 if (place, batch) == (DISK, 1) else 1.0,
             _beside_best(place, batch), SUM if place == MEMORY else SEALS)
        for place, batches in FULL.logged.items()
        for batch in batches
    ]


def _python(name: str, most: float, figure: Callable[[Figures], Optional[Spread]]) -> Goal:
    return Goal(name, most, figure, OBJECT, number_text, " ns")


def _of_python(workload: str) -> Row:
    return dict(group="python", side="python", workload=workload)


IN_C = dict(group="python", side="zevk", workload="uniform")

GOALS = [
    *_reads("unopened", "lmdb", "`zevk_get` / LMDB, get", 0.6, GETS, WALK),
    *_reads("path", "lmdb", "by path / LMDB, get", 0.6, SCATTERED, UNKNOWN),
    *_reads("path", "lmdb_cursor", "by path / LMDB by a cursor, get", 0.6, BY_CURSOR, UNKNOWN),
    *_reads("unopened", "lmdb_cursor", "`zevk_get` / LMDB by a cursor, get", 0.6, BY_CURSOR, WALK),
    *_reads("unopened", "cdb", "`zevk_get` / tinycdb, get", 1.0, GETS, WALK),
    *_reads("unopened", "lmdb", "`zevk_get_run` / LMDB", 0.6, ITERATE, BYTES),
    *_reads("unopened", "cdb", "`zevk_get_run` / tinycdb", 0.9, ITERATE, BYTES),
    *_opening(),
    *_cold(),
    *_large(),
    *_log(),
    _python("Python, a uniform get, beyond the call in C", 100,
            lambda figures: figures.differences(_of_python("uniform"), IN_C)),
    _python("Python, a get in sequence", 250, lambda figures: figures.spread(**_of_python("sequence"))),
    _python("Python, iterate", 100, lambda figures: figures.spread(**_of_python("iterate"))),
    _python("Python, `extend`, a document", 500, lambda figures: figures.spread(**_of_python("write"))),
]


def goals(figures: Figures) -> List[str]:
    """The table of all goals."""
    head = ["| goal: ours / theirs, 100 bytes | at most | figure | | why it is missed |", "|---|---|---|---|---|"]
    return head + [goal.line(figures) for goal in GOALS]
