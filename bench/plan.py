"""What is measured: every workload of every side, by group."""

from dataclasses import asdict, dataclass, replace
from typing import Dict, List

import shell_sides

#: sides in C: what users would pick instead, the floor, and ours, opened by `zevk_open` and unopened by `zevk_get`
PEERS = ["lmdb", "sqlite", "leveldb", "rocksdb", "cdb"]
OWN_C_SIDES = ["zevk", "unopened"]
USUAL_SIDES = PEERS + ["plain"] + OWN_C_SIDES

#: more sides in C: ours by the path of a file, by an outline and with all checks, and files that are read by ranges
PATH_SIDES = ["path", "checked"]
RANGED_SIDES = ["ranged", "plain_ranged"]

#: LMDB, whose gets move a cursor
CURSOR_SIDES = ["lmdb_cursor"]
C_SIDES = USUAL_SIDES + PATH_SIDES + RANGED_SIDES + CURSOR_SIDES

#: sides whose instructions are counted, and that read documents of many lengths
COUNTED_SIDES = ["lmdb", "cdb", "plain", "path"] + OWN_C_SIDES

#: sides in C that write in a way of their own
WRITERS = [side for side in USUAL_SIDES if side != "unopened"]

#: sides in C that keep a log, each batch of records before the next
LOG_PEERS = ["lmdb", "sqlite", "rocksdb"]

#: sides in C that add documents to a store; tinycdb can't
APPENDERS = ["path", "lmdb", "sqlite", "leveldb", "rocksdb"]

#: who wrote the store that a side reads, where that is not the side itself
WRITER_OF = {"unopened": "zevk", "path": "zevk", "checked": "zevk", "ranged": "zevk", "plain_ranged": "plain",
             "rust": "zevk", "python": "zevk", "lmdb_cursor": "lmdb"}

#: sides in Rattle, all ours: a reader with a cache over bytes in memory, the same over a file on disk, and a log
RATTLE_SIDES = ["reader", "disk", "log"]

#: sides in Python: the package, what Python's users would pick instead, and a dict of offsets over a mapped file
PYTHON_SIDES = ["python", "py_sqlite", "py_gnu", "py_lmdb", "py_offsets"]
PYTHON_APPENDERS = ["python", "py_sqlite", "py_lmdb"]

#: the package for Rust
RUST_SIDES = ["rust"]

#: calls that only the package for Python has
PYTHON_CALLS = ["view", "get_many", "get_many_threads", "slice", "verify"]

ORDERS = ["uniform", "hot", "zipf", "sequence"]
READS = ORDERS + ["iterate"]

#: what tables and drawings call the reads
READ_NAMES = {
    "uniform": "get, uniform",
    "hot": "get, hot",
    "zipf": "get, zipf",
    "sequence": "get in sequence",
    "iterate": "iterate",
}

KEPT = {"uniform": "keep_uniform", "sequence": "keep_sequence"}

#: workloads that get the same documents as another one
SAME_WORK = {"keep_uniform": "uniform", "keep_sequence": "sequence", "ranges": "uniform", "ranges_many": "uniform",
             "log_uniform": "uniform"}

#: workloads that make a log, and those that read one
LOG_MAKES = {"log_append", "log_synced_once"}
LOG_READS = {"log_open", "log_uniform"}

GROUPS = ["size", "read", "lengths", "instructions", "memory", "write", "append", "open", "cold", "threads", "ranges",
          "stack", "python", "program", "log", "long_log", "growth"]

#: what does not change from round to round, or takes minutes
ONCE = ["size", "instructions", "long_log"]

#: bytes of a block, where nothing else is said; at 0 each document has a block of its own
BLOCK_SIZE = 16384
BLOCK_EACH = 0

#: one of this many documents is hot
HOT_SHARE = 100

#: where the bytes are: a file system in memory, files on a disk, or memory of the process
MEMORY, DISK, PROCESS = "memory", "disk", "process"


@dataclass(frozen=True)
class Row:
    """One workload of one side."""

    group: str
    workload: str
    place: str
    side: str
    documents: int
    length: int
    block_size: int = BLOCK_SIZE
    questions: int = 1
    threads: int = 1
    are_many: bool = False  # lengths, of which `length` is the mean

    @property
    def hot(self) -> int:
        return max(1, self.documents // HOT_SHARE)

    def work(self) -> tuple:
        """What has to give the same check on every side."""
        workload = SAME_WORK.get(self.workload, self.workload)
        return (workload, self.documents, self.length, self.questions, self.threads, self.are_many)

    def compared(self) -> tuple:
        """What all rows have in common that are compared with each other."""
        return (self.group, self.workload, self.documents, self.length, self.threads, self.are_many)

    def told(self) -> Dict[str, object]:
        return asdict(self)


@dataclass(frozen=True)
class Sizes:
    """How much of everything."""

    documents: Dict[int, int]  # how many, by their length
    questions: int             # gets of each workload
    counted: int               # gets of each workload whose instructions are counted
    opens: int
    cold: int                  # gets from a file that is not in memory
    threads: List[int]
    blocks: List[int]          # of the growth
    appended: int              # documents that are added to a store
    stacked: Dict[int, int]    # how many stores are stacked, by their documents
    python: int                # documents of a store that Python reads
    python_asked: int
    lines: Dict[int, int]      # how many lines the program packs, by their length
    logged: Dict[str, Dict[int, int]]  # how many records a log gets, by their place and by how many come in a batch
    synced_once: Dict[str, int]        # how many a log gets that is synced once, by their place
    long: int                          # records of a log that is opened and read
    longest: int                       # records of a log whose memory is measured


#: how many records come in a batch of a log that is synced once, and of a long one
SMALL_BATCH, LARGE_BATCH = 100, 10_000


FULL = Sizes(
    documents={8: 1_000_000, 100: 1_000_000, 1000: 200_000, 20000: 10_000},
    questions=100_000,
    counted=20_000,
    opens=20,
    cold=1000,
    threads=[1, 8],
    blocks=[10**digits for digits in range(2, 8)],
    appended=1000,
    stacked={1000: 100, 10: 1000},
    python=200_000,
    python_asked=50_000,
    lines={20: 2_000_000, 1000: 200_000},
    logged={MEMORY: {1: 10_000, 100: 50_000, 10_000: 500_000}, DISK: {1: 500, 100: 20_000, 10_000: 200_000}},
    synced_once={MEMORY: 500_000, DISK: 200_000},
    long=1_000_000,
    longest=10**8,
)

QUICK = Sizes(
    documents={8: 20_000, 100: 20_000, 1000: 4000, 20000: 400},
    questions=5000,
    counted=500,
    opens=3,
    cold=50,
    threads=[1, 8],
    blocks=[100, 1000, 10_000],
    appended=100,
    stacked={100: 10, 10: 100},
    python=5000,
    python_asked=2000,
    lines={20: 20_000, 1000: 2000},
    logged={MEMORY: {1: 100, 100: 1000, 10_000: 20_000}, DISK: {1: 20, 100: 500, 10_000: 15_000}},
    synced_once={MEMORY: 25_000, DISK: 18_000},
    long=30_000,
    longest=100_000,
)


def size_rows(sizes: Sizes) -> List[Row]:
    return [
        Row("size", "size", DISK, side, documents, length)
        for length, documents in sizes.documents.items()
        for side in WRITERS
    ]


def _reads(group: str, place: str, sides: List[str], lengths: List[int], sizes: Sizes) -> List[Row]:
    return [
        Row(group, order, place, side, sizes.documents[length], length,
            questions=1 if order == "iterate" else sizes.questions)
        for length in lengths
        for order in READS
        for side in sides
    ]


def read_rows(sizes: Sizes) -> List[Row]:
    """Files in the page cache, of every length; of one also by path, and by the disk's reader, which writes its file
    each time."""
    lengths = list(sizes.documents)
    rows = _reads("read", DISK, USUAL_SIDES, lengths, sizes) + _reads("read", DISK, PATH_SIDES + ["disk"], [100], sizes)
    in_sequence = _reads("read", DISK, CURSOR_SIDES, lengths, sizes)
    return rows + [row for row in in_sequence if row.workload == "sequence"]


def length_rows(sizes: Sizes) -> List[Row]:
    """Documents of many lengths, and as many of one."""
    rows = _reads("lengths", DISK, COUNTED_SIDES, [100], sizes)
    return rows + [replace(row, are_many=True) for row in rows]


def instruction_rows(sizes: Sizes) -> List[Row]:
    """The instructions of gets, and of opens."""
    works = [(order, sizes.counted) for order in ORDERS] + [("open", sizes.opens)]
    return [
        Row("instructions", workload, DISK, side, sizes.documents[100], 100, questions=questions)
        for workload, questions in works
        for side in COUNTED_SIDES
    ]


def memory_rows(sizes: Sizes, outside: List[str]) -> List[Row]:
    """Memory of the process for every length, and a file system in memory for one."""
    own, lengths = ["reader"] + outside, list(sizes.documents)
    return _reads("memory", MEMORY, ["zevk"], [100], sizes) + _reads("memory", PROCESS, own, lengths, sizes)


def write_rows(sizes: Sizes, outside: List[str]) -> List[Row]:
    rows = []
    for length, documents in sizes.documents.items():
        places = [(MEMORY, WRITERS + ["disk"]), (PROCESS, ["reader"] + outside)]
        if length in (100, 1000):
            places.append((DISK, WRITERS + ["disk"]))
        for place, sides in places:
            rows += [Row("write", "write", place, side, documents, length) for side in sides]
    return rows


def append_rows(sizes: Sizes) -> List[Row]:
    """Some documents to a store of many, once: in memory and on a disk."""
    return [
        Row("append", "append", place, side, sizes.documents[100], 100, questions=sizes.appended)
        for place in (MEMORY, DISK)
        for side in APPENDERS
    ]


def open_rows(sizes: Sizes, outside: List[str]) -> List[Row]:
    """By all the calls in C and in Rust, and of bytes in memory."""
    shapes = [(100, sizes.documents[100]), (20000, sizes.documents[20000])]
    places = [(DISK, USUAL_SIDES + PATH_SIDES + RUST_SIDES), (PROCESS, ["reader"] + outside)]
    return [
        Row("open", "open", place, side, documents, length, questions=sizes.opens)
        for length, documents in shapes
        for place, sides in places
        for side in sides
    ]


def cold_rows(sizes: Sizes) -> List[Row]:
    return [
        Row("cold", "cold", DISK, side, sizes.documents[length], length, questions=sizes.cold)
        for length in (100, 1000, 20000)
        for side in USUAL_SIDES + PATH_SIDES
    ]


def range_rows(sizes: Sizes) -> List[Row]:
    """Gets that read a block each, and the package for Python, which keeps blocks."""
    rows = [
        Row("ranges", "ranges", DISK, side, sizes.documents[length], length, questions=sizes.cold)
        for length in (100, 1000, 20000)
        for side in RANGED_SIDES
    ]
    return rows + [
        Row("ranges", workload, DISK, "python", sizes.documents[100], 100, questions=sizes.cold)
        for workload in ("ranges", "ranges_many")
    ]


def stack_rows(sizes: Sizes, outside: List[str]) -> List[Row]:
    """Small stores that are stacked into one in memory: the questions are how many stores."""
    return [
        Row("stack", "stack", PROCESS, side, documents, 100, questions=stores)
        for documents, stores in sizes.stacked.items()
        for side in ["reader"] + outside
    ]


def python_rows(sizes: Sizes) -> List[Row]:
    """The package for Python beside what Python's users would pick, and the same gets in C."""
    def row(workload: str, side: str, questions: int = 1, threads: int = 1) -> Row:
        return Row("python", workload, MEMORY, side, sizes.python, 100, questions=questions, threads=threads)

    rows = [row(workload, side, asked)
            for workload, asked in (("write", 1), ("open", 1), ("uniform", sizes.python_asked),
                                    ("sequence", sizes.python_asked), ("iterate", 1))
            for side in PYTHON_SIDES]
    rows += [row("append", side, sizes.appended) for side in PYTHON_APPENDERS]
    rows += [row(workload, "zevk", sizes.python_asked) for pair in KEPT.items() for workload in pair]
    return rows + [row(call, "python", sizes.python_asked, 2 if call == "get_many_threads" else 1)
                   for call in PYTHON_CALLS]


def program_rows(sizes: Sizes) -> List[Row]:
    """The program on short lines in memory and on long ones on a disk."""
    return [
        Row("program", workload, DISK if length == shell_sides.LONG else MEMORY, side, count, length)
        for length, count in sizes.lines.items()
        for workload in shell_sides.WORKLOADS["program"]
        for side, workloads in shell_sides.WORKLOADS.items()
        if workload in workloads
    ]


def log_rows(sizes: Sizes) -> List[Row]:
    """Records to a new log, each batch kept before the next, or one sync after all of them: the questions are how many
    records a batch has. And the reading of a log."""
    works = [("log_append", place, count, batch)
             for place, batches in sizes.logged.items() for batch, count in batches.items()]
    works += [("log_synced_once", place, count, SMALL_BATCH) for place, count in sizes.synced_once.items()]
    works += [("log_open", DISK, sizes.long, sizes.opens), ("log_uniform", DISK, sizes.long, sizes.questions)]
    return [
        Row("log", workload, place, side, count, 100, questions=questions)
        for workload, place, count, questions in works
        for side in ["log"] + LOG_PEERS
    ]


def long_log_rows(sizes: Sizes) -> List[Row]:
    """As many records as a log of years has, of ours alone: what counts is how much memory the process takes."""
    return [Row("long_log", "log_append", DISK, "log", sizes.longest, 100, questions=LARGE_BATCH)]


def thread_rows(sizes: Sizes) -> List[Row]:
    return [
        Row("threads", "threads", DISK, side, sizes.documents[100], 100, questions=sizes.questions, threads=threads)
        for threads in sizes.threads
        for side in USUAL_SIDES
    ]


def growth_rows(sizes: Sizes) -> List[Row]:
    """A block for each document of ours, and as many documents of some others."""
    rows = []
    for blocks in sizes.blocks:
        opens = max(1, min(100, 1_000_000 // blocks))
        for side, place in [("zevk", DISK), ("unopened", DISK), ("path", DISK), ("reader", PROCESS),
                            ("plain", DISK), ("lmdb", DISK), ("cdb", DISK)]:
            rows.append(Row("growth", "uniform", place, side, blocks, 8, BLOCK_EACH, sizes.questions))
            rows.append(Row("growth", "open", place, side, blocks, 8, BLOCK_EACH, opens))
    return rows


def rows_of(groups: List[str], sizes: Sizes, outside: List[str]) -> List[Row]:
    """The rows of these groups, one side after the other for each work."""
    made = {
        "size": lambda: size_rows(sizes),
        "read": lambda: read_rows(sizes),
        "lengths": lambda: length_rows(sizes),
        "instructions": lambda: instruction_rows(sizes),
        "memory": lambda: memory_rows(sizes, outside),
        "write": lambda: write_rows(sizes, outside),
        "append": lambda: append_rows(sizes),
        "open": lambda: open_rows(sizes, outside),
        "cold": lambda: cold_rows(sizes),
        "threads": lambda: thread_rows(sizes),
        "ranges": lambda: range_rows(sizes),
        "stack": lambda: stack_rows(sizes, outside),
        "python": lambda: python_rows(sizes),
        "program": lambda: program_rows(sizes),
        "log": lambda: log_rows(sizes),
        "long_log": lambda: long_log_rows(sizes),
        "growth": lambda: growth_rows(sizes),
    }
    return [row for group in GROUPS if group in groups for row in made[group]()]
