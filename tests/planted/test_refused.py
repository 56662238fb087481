"""Every wrong body is refused: a test for each crate, whose bodies are tried beside those of the other crates.

Beside a process that builds the libraries, the bodies of a crate are tried as soon as the libraries are there.
"""

from __future__ import annotations

import os
import re
import time
from concurrent.futures import Future, ThreadPoolExecutor
from pathlib import Path
from threading import Semaphore

from harness import Case
from planted.crates import Crate, planted
from planted.trial import Trial

# What a check may need: the most that was seen is 2.5 GB.
ROOM = 3 << 30
MEMORY = Path("/proc/meminfo")
# The process that builds the libraries, if one does.
BUILDING = Path("/proc", os.environ.get("ZEVKHADUN_TEST_BESIDE") or "none")


def lanes() -> int:
    """How many checks run side by side: one for a processor, as memory allows."""
    free = int(re.search(r"^MemAvailable:\s+(\d+) kB$", MEMORY.read_text(), re.M)[1]) << 10
    return max(1, min(len(os.sched_getaffinity(0)), free // ROOM))


def weight(crate: Crate) -> int:
    """What tells which crate takes longest: how many bodies it has, and how large it is."""
    lines = sum(path.read_bytes().count(b"\n") for path in crate.folder.glob("src/**/*.rt"))
    return lines * (4 + len(list((crate.folder / "planted").glob("*.edit"))))


def tried(crate: Crate, turns: Semaphore) -> Trial | None:
    """A trial of a crate's bodies, once its libraries are there; nothing if nobody builds them."""
    since = BUILDING.stat().st_mtime if BUILDING.is_dir() else 0
    while BUILDING.is_dir() and not crate.is_settled(since):
        time.sleep(2)
    with turns:
        return None if crate.lack() else Trial(crate).run()


class WrongBodies(Case):
    """The crates that are asked for, and their trials, which begin with the first test."""

    asked: list[Crate] = []
    trials: dict[str, Future[Trial]] = {}
    crates = {f"test_{crate.name}": crate for crate in planted()}

    def __init__(self, test: str) -> None:
        super().__init__(test)
        self.crate = self.crates[test]
        self.asked.append(self.crate)

    @classmethod
    def setUpClass(cls) -> None:
        turns = Semaphore(lanes())
        cls.pool = ThreadPoolExecutor(len(cls.asked))
        for crate in sorted(set(cls.asked), key=weight, reverse=True):
            cls.trials[crate.name] = cls.pool.submit(tried, crate, turns)

    @classmethod
    def tearDownClass(cls) -> None:
        cls.pool.shutdown(cancel_futures=True)
        ended = [trial.result() for trial in cls.trials.values() if trial.done() and not trial.cancelled()]
        done = [trial for trial in ended if trial]
        refused, seconds = sum(len(trial.refused) for trial in done), sum(trial.seconds for trial in done)
        print(f"wrong bodies: {refused} refused, {seconds:.0f} processor seconds", flush=True)

    def all_are_refused(self) -> None:
        trial = self.trials[self.crate.name].result()
        self.assertEqual(self.crate.lack(), "")
        print(trial, flush=True)
        if trial.faults:
            self.fail("\n".join(f"{trial.crate.name}/{name}: {fault}" for name, fault in trial.faults.items()))


for name in WrongBodies.crates:
    setattr(WrongBodies, name, WrongBodies.all_are_refused)
