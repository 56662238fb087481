"""What reads and writes stores in Python: the package, and what Python's users would pick instead."""

import mmap
import sqlite3
import struct
from array import array
from typing import Iterable, Iterator, List, Type

try:
    import dbm.gnu as gnu
except ImportError:
    gnu = None
try:
    import lmdb
except ImportError:
    lmdb = None
try:
    import zevkhadun
except ImportError:
    zevkhadun = None


class Zevkhadun:
    """The package for Python."""

    name = "python"
    is_there = zevkhadun is not None

    @staticmethod
    def write(path: str, given: Iterable[bytes]) -> None:
        with zevkhadun.Writer(path, replace=True) as writer:
            writer.extend(given)

    @staticmethod
    def append(path: str, first: int, given: Iterable[bytes]) -> None:
        """The new store takes the blocks of the old one, and its name."""
        with zevkhadun.Store(path) as old, zevkhadun.Writer(path, replace=True) as writer:
            writer.stack(old)
            writer.extend(given)

    def __init__(self, path: str) -> None:
        self.store = zevkhadun.Store(path)

    def get(self, number: int) -> bytes:
        return self.store[number]

    def gets(self, numbers: Iterable[int]) -> List[bytes]:
        store = self.store
        return [store[number] for number in numbers]

    def __iter__(self) -> Iterator[bytes]:
        return iter(self.store)

    def close(self) -> None:
        self.store.close()


class Sqlite:
    """A table of numbers and blobs, by the module sqlite3."""

    name = "py_sqlite"
    is_there = True

    @classmethod
    def write(cls, path: str, given: Iterable[bytes]) -> None:
        cls.append(path, 0, given)

    @staticmethod
    def append(path: str, first: int, given: Iterable[bytes]) -> None:
        base = sqlite3.connect(path, isolation_level=None)
        base.execute("PRAGMA journal_mode=OFF")
        base.execute("CREATE TABLE IF NOT EXISTS documents (id INTEGER PRIMARY KEY, bytes BLOB)")
        base.execute("BEGIN")
        base.executemany("INSERT INTO documents VALUES (?, ?)", enumerate(given, first))
        base.execute("COMMIT")
        base.close()

    def __init__(self, path: str) -> None:
        self.base = sqlite3.connect(f"file:{path}?mode=ro", uri=True)
        self.base.execute("PRAGMA mmap_size=17179869184")
        self.cursor = self.base.cursor()

    def get(self, number: int) -> bytes:
        return self.gets([number])[0]

    def gets(self, numbers: Iterable[int]) -> List[bytes]:
        ask, query = self.cursor.execute, "SELECT bytes FROM documents WHERE id = ?"
        return [ask(query, (number,)).fetchone()[0] for number in numbers]

    def __iter__(self) -> Iterator[bytes]:
        return (row[0] for row in self.base.execute("SELECT bytes FROM documents ORDER BY id"))

    def close(self) -> None:
        self.base.close()


class Gnu:
    """A hash of numbers as text, by the module dbm.gnu."""

    name = "py_gnu"
    is_there = gnu is not None

    @staticmethod
    def write(path: str, given: Iterable[bytes]) -> None:
        with gnu.open(path, "nf") as base:
            for number, document in enumerate(given):
                base[str(number)] = document
            base.sync()

    def __init__(self, path: str) -> None:
        self.base = gnu.open(path, "r")

    def get(self, number: int) -> bytes:
        return self.base[str(number)]

    def gets(self, numbers: Iterable[int]) -> List[bytes]:
        base = self.base
        return [base[str(number)] for number in numbers]

    def __iter__(self) -> Iterator[bytes]:
        # In the order of the numbers, which the hash does not have.
        number = 0
        while (key := str(number)) in self.base:
            yield self.base[key]
            number += 1

    def close(self) -> None:
        self.base.close()


class Lmdb:
    """A tree of numbers of four bytes, the highest first, by py-lmdb."""

    name = "py_lmdb"
    is_there = lmdb is not None

    @staticmethod
    def opened(path: str, **given: object) -> "lmdb.Environment":
        return lmdb.open(path, subdir=False, lock=False, map_size=1 << 34, **given)

    @classmethod
    def write(cls, path: str, given: Iterable[bytes]) -> None:
        cls.append(path, 0, given)

    @classmethod
    def append(cls, path: str, first: int, given: Iterable[bytes]) -> None:
        with cls.opened(path, writemap=True, sync=False) as base:
            with base.begin(write=True) as changes:
                put, key = changes.put, struct.Struct(">I").pack
                for number, document in enumerate(given, first):
                    put(key(number), document, append=True)
            base.sync(True)

    def __init__(self, path: str) -> None:
        self.base = self.opened(path, readonly=True)
        self.reading = self.base.begin()

    def get(self, number: int) -> bytes:
        return self.gets([number])[0]

    def gets(self, numbers: Iterable[int]) -> List[bytes]:
        get, key = self.reading.get, struct.Struct(">I").pack
        return [get(key(number)) for number in numbers]

    def __iter__(self) -> Iterator[bytes]:
        return iter(self.reading.cursor().iternext(keys=False, values=True))

    def close(self) -> None:
        self.reading.abort()
        self.base.close()


class Offsets:
    """The floor: a mapped file, and a dict of where each document ends, which is made when it is opened."""

    name = "py_offsets"
    is_there = True

    @staticmethod
    def write(path: str, given: Iterable[bytes]) -> None:
        ends = array("Q")
        end = 0
        with open(path, "wb", buffering=1 << 20) as file:
            for document in given:
                file.write(document)
                end += len(document)
                ends.append(end)
            ends.tofile(file)
            file.write(struct.pack("<Q", end))

    def __init__(self, path: str) -> None:
        with open(path, "rb") as file:
            self.map = mmap.mmap(file.fileno(), 0, access=mmap.ACCESS_READ)
        (table,) = struct.unpack("<Q", self.map[-8:])
        ends = array("Q", self.map[table:-8])
        starts = [0, *ends]
        self.places = {number: (starts[number], end) for number, end in enumerate(ends)}

    def get(self, number: int) -> bytes:
        start, end = self.places[number]
        return self.map[start:end]

    def gets(self, numbers: Iterable[int]) -> List[bytes]:
        content, places = self.map, self.places
        return [content[places[number][0]:places[number][1]] for number in numbers]

    def __iter__(self) -> Iterator[bytes]:
        return (self.map[start:end] for start, end in self.places.values())

    def close(self) -> None:
        self.map.close()


SIDES: List[Type] = [Zevkhadun, Sqlite, Gnu, Lmdb, Offsets]


def side_of(name: str) -> Type:
    """The side of a name."""
    return next(side for side in SIDES if side.name == name)
