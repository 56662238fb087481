#!/usr/bin/env python3
"""Does one workload of one side in Python, and prints what it took as one line of JSON, as peers/main.c does in C.

usage: from_python.py SIDE WORKLOAD PATH [key=number ...]
       from_python.py sides

SIDE: python, py_sqlite, py_gnu, py_lmdb or py_offsets; `sides` prints those that this Python has. The package
zevkhadun has to be installed where this runs: run.py makes an environment that has it.
"""

import json
import os
import sys
import threading
import time
from collections import deque
from pathlib import Path
from typing import Callable, Dict, Iterator, List, Tuple

import python_sides
from inputs import check_of, documents, sequence, uniform

Told = Dict[str, object]


def timed(work: Callable[[], object]) -> Tuple[int, object]:
    """The nanoseconds that something took, and what it returned."""
    start = time.perf_counter_ns()
    done = work()
    return time.perf_counter_ns() - start, done


class Work:
    """A workload: a side, a path, and numbers."""

    def __init__(self, side: str, path: str, numbers: Dict[str, int]) -> None:
        self.side = python_sides.side_of(side)
        self.path = path
        self.count = numbers.get("n", 1000)
        self.length = numbers.get("l", 100)
        self.questions = numbers.get("q", 1)
        self.threads = numbers.get("threads", 1)

    def told(self, count: int, nanoseconds: int, check: str = "", **more: int) -> Told:
        return {"count": count, "ns": nanoseconds, "check": check, **more}

    def walked(self) -> str:
        """The check of all documents, in order."""
        reader = self.side(self.path)
        check = check_of(reader)
        reader.close()
        return check

    def size(self) -> int:
        return Path(self.path).stat().st_blocks * 512

    # ---- what every side does

    def write(self) -> Told:
        Path(self.path).unlink(missing_ok=True)
        given = documents(0, self.count, self.length)
        nanoseconds, _ = timed(lambda: self.side.write(self.path, given))
        return self.told(self.count, nanoseconds, self.walked(), file_bytes=self.size())

    def append(self) -> Told:
        given = documents(self.count, self.count + self.questions, self.length)
        nanoseconds, _ = timed(lambda: self.side.append(self.path, self.count, given))
        return self.told(1, nanoseconds, self.walked(), file_bytes=self.size())

    def open(self) -> Told:
        """The second of two times, since the first one brings the file into memory."""
        def first() -> bytes:
            reader = self.side(self.path)
            document = reader.get(0)
            reader.close()
            return document

        first()
        nanoseconds, document = timed(first)
        return self.told(1, nanoseconds, check_of([document]))

    def gets(self, numbers: List[int]) -> Told:
        reader = self.side(self.path)
        reader.gets(numbers)
        nanoseconds, found = timed(lambda: reader.gets(numbers))
        reader.close()
        return self.told(len(numbers), nanoseconds, check_of(found))

    def uniform(self) -> Told:
        return self.gets(uniform(self.questions, self.count))

    def sequence(self) -> Told:
        return self.gets(sequence(self.questions, self.count))

    def iterate(self) -> Told:
        reader = self.side(self.path)
        check = check_of(reader)
        nanoseconds, _ = timed(lambda: deque(reader, maxlen=0))
        reader.close()
        return self.told(self.count, nanoseconds, check)

    # ---- what only the package does

    def called(self, call: Callable[[python_sides.Zevkhadun], object], count: int) -> Told:
        reader = self.side(self.path)
        check_of(reader)
        nanoseconds, _ = timed(lambda: call(reader.store))
        reader.close()
        return self.told(count, nanoseconds)

    def view(self) -> Told:
        numbers = uniform(self.questions, self.count)
        return self.called(lambda store: deque(map(store.view, numbers), maxlen=0), self.questions)

    def get_many(self) -> Told:
        numbers = uniform(self.questions, self.count)
        return self.called(lambda store: store.get_many(numbers), self.questions)

    def get_many_threads(self) -> Told:
        """Each thread gets all of them; the time is that of each document of all threads."""
        numbers = uniform(self.questions, self.count)

        def run(store: object) -> None:
            threads = [threading.Thread(target=store.get_many, args=(numbers,)) for _ in range(self.threads)]
            for thread in threads:
                thread.start()
            for thread in threads:
                thread.join()

        return self.called(run, self.questions * self.threads)

    def slice(self) -> Told:
        return self.called(lambda store: store[:], self.count)

    def verify(self) -> Told:
        return self.called(lambda store: store.verify(), self.count)

    # ---- by ranges

    def ranges(self) -> Told:
        """Gets by one number each, from a store that keeps 16 MiB of blocks."""
        return self.ranged(lambda store, numbers: [store[number] for number in numbers])

    def ranges_many(self) -> Told:
        """The same documents by one call."""
        return self.ranged(lambda store, numbers: store.get_many(numbers))

    def ranged(self, get: Callable[[object, List[int]], List[bytes]]) -> Told:
        numbers = uniform(self.questions, self.count)
        file = os.open(self.path, os.O_RDONLY)
        reads: List[int] = []

        def read(start: int, length: int) -> bytes:
            reads.append(length)
            return os.pread(file, length, start)

        store = python_sides.zevkhadun.RangedStore(read, os.fstat(file).st_size)
        opened = len(reads)
        nanoseconds, found = timed(lambda: get(store, numbers))
        os.close(file)
        return self.told(len(numbers), nanoseconds, check_of(found), reads=len(reads) - opened,
                         read_bytes=sum(reads[opened:]), open_reads=opened, open_read_bytes=sum(reads[:opened]))


WORKLOADS = ("write", "append", "open", "uniform", "sequence", "iterate", "view", "get_many", "get_many_threads",
             "slice", "verify", "ranges", "ranges_many")


def numbers_of(words: List[str]) -> Iterator[Tuple[str, int]]:
    for word in words:
        key, number = word.split("=", 1)
        yield key, int(number)


def main() -> int:
    if sys.argv[1:] == ["sides"]:
        print(*(side.name for side in python_sides.SIDES if side.is_there))
        return 0
    if len(sys.argv) < 4 or sys.argv[2] not in WORKLOADS:
        print(__doc__, file=sys.stderr)
        return 2
    side, workload, path = sys.argv[1:4]
    work = Work(side, path, dict(numbers_of(sys.argv[4:])))
    print(json.dumps(getattr(work, workload)()))
    return 0


if __name__ == "__main__":
    sys.exit(main())
