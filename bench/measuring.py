"""Taking the rounds of all rows, and again those of works whose rounds lay far apart."""

import random
import sys
import time
from dataclasses import dataclass
from typing import Dict, List, Optional, Tuple

import sides
from figures import each_of, spread_of, EVEN
from plan import GROUPS, ONCE, Row

#: rounds below which no figure is given
LEAST_ROUNDS = 3

Rounds = List[Dict[str, object]]


@dataclass
class Pace:
    """How many rounds there are, and until when one may begin."""

    rounds: int
    again: int
    until: Optional[float]

    @classmethod
    def of(cls, rounds: int, again: int, minutes: Optional[float]) -> "Pace":
        return cls(rounds, again, None if minutes is None else time.monotonic() + 60 * minutes)

    def is_over(self) -> bool:
        return self.until is not None and time.monotonic() >= self.until


class Measurements:
    """What was measured so far, and the check of each work."""

    def __init__(self) -> None:
        self.rounds: Dict[Row, Rounds] = {}
        self.again: Dict[Row, int] = {}
        self.checks: Dict[tuple, Tuple[str, str]] = {}

    def agree(self, work: tuple, side: str, check: str) -> None:
        """Fails where a side did other work than the first one did."""
        if not check:
            return
        first, seen = self.checks.setdefault(work, (side, check))
        if check != seen:
            raise sides.Failed(f"{side} did other work than {first}: {work}: {check}, {seen}")

    def take(self, programs: sides.Programs, row: Row) -> Dict[str, object]:
        """A round of a row, whose check is that of the other sides."""
        told = sides.run(programs, row)
        if row.workload != "size":
            self.agree(row.work(), row.side, str(told.get("check", "")))
        return told

    def works(self) -> Dict[tuple, List[Row]]:
        """The rows of each work: they are compared round by round."""
        found: Dict[tuple, List[Row]] = {}
        for row in self.rounds:
            found.setdefault(row.compared(), []).append(row)
        return found

    def unevenness(self, rows: List[Row]) -> float:
        """How wide the interval of the most uneven of these rows is, as a share of its median."""
        return max(spread_of([each_of(taken) for taken in self.rounds[row]]).share for row in rows)

    def uneven(self) -> List[List[Row]]:
        """The works that have a row whose interval is wide, the most uneven first."""
        works = [(self.unevenness(rows), rows) for rows in self.works().values()]
        return [rows for share, rows in sorted(works, key=lambda work: -work[0]) if share > EVEN]

    def rows(self) -> List[Dict[str, object]]:
        return [{**row.told(), "again": self.again.get(row, 0), "rounds": rounds}
                for row, rounds in self.rounds.items()]


def make_stores(programs: sides.Programs, rows: List[Row], measured: Measurements) -> None:
    """The stores that rows read, each by the side that writes it."""
    for row in rows:
        made = sides.make(programs, row)
        measured.agree(("write", row.documents, row.length, 1, 1, row.are_many), row.side, made)


def say(text: str) -> None:
    print(f"{time.strftime('%H:%M:%S')} {text}", file=sys.stderr)


def shuffled(rows: List[Row], turn: int) -> List[Row]:
    """The rows in an order of this turn's own: the works shuffled, and the sides within each, so that no side comes
    after the same one in every round."""
    works: Dict[tuple, List[Row]] = {}
    for row in rows:
        works.setdefault(row.compared(), []).append(row)
    order = random.Random(turn)
    mixed = order.sample(list(works.values()), len(works))
    return [row for sides_of in mixed for row in order.sample(sides_of, len(sides_of))]


def take_all(programs: sides.Programs, measured: Measurements, rows: List[Row], pace: Pace) -> int:
    """All sides in turn, again and again, until there are enough rounds or the time is over. Returns the rounds."""
    measured.rounds = {row: [] for row in rows}
    for turn in range(pace.rounds):
        if pace.is_over() and turn >= LEAST_ROUNDS:
            return turn
        for row in shuffled(rows, turn):
            if turn == 0 or row.group not in ONCE:
                measured.rounds[row].append(measured.take(programs, row))
        say(f"round {turn + 1} of {pace.rounds}, {len(rows)} rows")
    return pace.rounds


def take_again(programs: sides.Programs, measured: Measurements, rows: List[Row], rounds: int) -> None:
    """More rounds of the rows of one work, after those that it had: all of these, or none if it is interrupted."""
    taken: Dict[Row, Rounds] = {row: [] for row in rows}
    first = len(measured.rounds[rows[0]])
    for turn in range(first, first + rounds):
        for row in shuffled(rows, turn):
            taken[row].append(measured.take(programs, row))
    for row in rows:
        measured.rounds[row] += taken[row]
        measured.again[row] = measured.again.get(row, 0) + 1


def even_out(programs: sides.Programs, measured: Measurements, rounds: int, pace: Pace) -> None:
    """Measures uneven works again, the most uneven first, while there is time."""
    for _ in range(pace.again):
        works = measured.uneven()
        say(f"{len(works)} of {len(measured.works())} works are uneven")
        for rows in works:
            if pace.is_over():
                say("the time is over: the other works keep the rounds that they had")
                return
            take_again(programs, measured, rows, rounds)


def measure(programs: sides.Programs, rows: List[Row], pace: Pace) -> Tuple[Measurements, int]:
    """The rounds of all rows, and then those of uneven works again. Returns how many rounds a row has, too.

    An interrupt (Ctrl-C) while a work is measured again leaves the rounds that it had, and ends the run.
    """
    measured = Measurements()
    make_stores(programs, rows, measured)
    say("the stores are made")
    rounds = take_all(programs, measured, rows, pace)
    try:
        even_out(programs, measured, rounds, pace)
    except KeyboardInterrupt:
        say("interrupted: the works that were not measured again keep the rounds that they had")
    return measured, rounds


def added_to(old: Dict[str, object], new: Dict[str, object]) -> Dict[str, object]:
    """The old file, with the groups that the new one has in place of its own, and when these were measured."""
    groups = list(dict.fromkeys(row["group"] for row in new["rows"]))
    moment = {"groups": groups, "before": new["before"], "after": new["after"],
              "revision": new["versions"]["revision"]}
    others = [{**told, "groups": [group for group in told["groups"] if group not in groups]}
              for told in old.get("earlier", [])]
    kept = [row for row in old["rows"] if row["group"] not in groups]
    rows = sorted(kept + new["rows"], key=lambda row: GROUPS.index(row["group"]))
    return {**old, "earlier": [told for told in others if told["groups"]] + [moment], "rows": rows}
