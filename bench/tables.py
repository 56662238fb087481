"""The tables of docs/PERFORMANCE.md. A figure is the median of the rounds; where its interval is more than 15 % of it
wide it follows in brackets."""

from typing import Callable, Collection, Dict, List, Optional

import volume
from figures import Figures, Spread, label_of, spread_of
from plan import DISK, LOG_MAKES, LOG_PEERS, LOG_READS, MEMORY, PROCESS, PYTHON_SIDES, READ_NAMES
from texts import Text, factor_text, in_table, number_text, time_text

LENGTHS = [8, 100, 1000, 20000]
PEER_COLUMNS = ["lmdb", "sqlite", "leveldb", "rocksdb", "cdb", "plain"]
C_COLUMNS = ["unopened", "zevk"] + PEER_COLUMNS
HEADS = {"unopened": "`zevk_get`", "zevk": "`zevk_locate`", "path": "by path",
         "checked": "by path, checked", "disk": "`DiskFile`", "log": "`SegmentedLog`"}

Lines = List[str]
Wanted = Dict[str, object]
Row = Dict[str, object]


def row_of(name: str, texts: List[str]) -> str:
    return f"| {name} | " + " | ".join(texts) + " |"


def head(first: str, sides: List[str], own: Optional[Dict[str, str]] = None) -> Lines:
    names = [(own or {}).get(side) or HEADS.get(side) or label_of(side) for side in sides]
    return [row_of(first, names), "|---" * (len(sides) + 1) + "|"]


def cells(figures: Figures, sides: List[str], text: Text, wanted: Wanted) -> List[str]:
    """The figure of each side, or nothing where it has none."""
    return [in_table(figures.spread(side=side, **wanted), text) for side in sides]


def read(figures: Figures) -> Lines:
    in_process = ["reader"]
    sides = ["unopened", "zevk", "path", "checked", *in_process, "disk", "lmdb", "lmdb_cursor", *PEER_COLUMNS[1:]]
    lines = head("reading", sides)
    for workload, name in READ_NAMES.items():
        wanted = dict(workload=workload, length=100)
        spreads = [figures.spread(side=side, group="memory", place=PROCESS, **wanted) if side in in_process
                   else figures.spread(side=side, group="read", place=DISK, **wanted) for side in sides]
        lines.append(row_of(name, [in_table(spread, number_text) for spread in spreads]))
    return lines


def ratios(figures: Figures) -> Lines:
    """Ours by theirs, as the median of the rounds' ratios."""
    pairs = [(ours, side) for side in ("lmdb", "lmdb_cursor", "cdb") for ours in ("unopened", "zevk")]
    lines = [row_of("reading", [f"{HEADS[ours]} / {label_of(side)}" for ours, side in pairs]),
             "|---" * (len(pairs) + 1) + "|"]
    for workload, name in READ_NAMES.items():
        common = dict(group="read", place=DISK, workload=workload, length=100)
        spreads = [figures.ratios(dict(side=ours, **common), dict(side=side, **common)) for ours, side in pairs]
        lines.append(row_of(name, [in_table(spread, factor_text) for spread in spreads]))
    return lines


def lengths(figures: Figures) -> Lines:
    """Documents of one length, and of many with the same mean."""
    sides = ["unopened", "path", "zevk", "lmdb", "cdb", "plain"]
    lines = head("reading", sides)
    for workload, name in READ_NAMES.items():
        for are_many, which in ((False, "one length"), (True, "many")):
            wanted = dict(group="lengths", workload=workload, are_many=are_many)
            lines.append(row_of(f"{name}, {which}", cells(figures, sides, number_text, wanted)))
    return lines if figures.find(group="lengths") else []


def instructions(figures: Figures) -> Lines:
    """How many a get takes, or an open."""
    sides = ["unopened", "path", "zevk", "lmdb", "cdb", "plain"]
    lines = head("instructions", sides)
    for workload, name in {**READ_NAMES, "open": "open, and get document 0"}.items():
        wanted = dict(group="instructions", workload=workload)
        if figures.find(**wanted):
            lines.append(row_of(name, cells(figures, sides, number_text, wanted)))
    return lines if figures.find(group="instructions") else []


def beside_tantivy(figures: Figures) -> Lines:
    """The reader and the writer in Rattle beside tantivy's."""
    lines = ["| ns | here | tantivy | ratio |", "|---|---|---|---|"]
    works = [(dict(group="memory", workload=workload, length=length), f"{name}, {length} bytes")
             for length in LENGTHS for workload, name in READ_NAMES.items()]
    works += [(dict(group="write", workload="write", length=length), f"write, {length} bytes") for length in LENGTHS]
    works += [(dict(group="open", length=row["length"]), f"open, {row['documents']} of {row['length']} bytes")
              for row in figures.find(group="open", side="tantivy")]
    works += [(dict(group="stack", documents=row["documents"]),
               f"stack {row['questions']} stores of {row['documents']} documents, each")
              for row in figures.find(group="stack", side="tantivy")]
    rows = [_pair(figures, common, name) for common, name in works]
    return lines + [row for row in rows if row]


def _pair(figures: Figures, common: Wanted, name: str) -> str:
    ours, theirs = (dict(side=side, place=PROCESS, **common) for side in ("reader", "tantivy"))
    ratio = figures.ratios(ours, theirs)
    if ratio is None:
        return ""
    texts = [in_table(figures.spread(**row), number_text) for row in (ours, theirs)]
    return row_of(name, [*texts, in_table(ratio, factor_text)])


def other(figures: Figures) -> Lines:
    sides = [*C_COLUMNS[:2], "path", "checked", *PEER_COLUMNS]
    lines = head("other work", sides)
    works = [(dict(group="cold", length=length), f"get, cold, of {length} bytes") for length in (100, 1000, 20000)]
    works += [(dict(group="threads", threads=threads), f"get, uniform, {threads} thread" + "s" * (threads > 1))
              for threads in (1, 8)]
    return lines + [row_of(name, cells(figures, sides, time_text, wanted)) for wanted, name in works]


#: how users open a store, and what they call for it
OPENS = {"unopened": "`zevk_get`", "path": "`zevk_file_open`", "zevk": "`zevk_open`",
         "checked": "`zevk_file_open`, checked", "reader": "`StoreReader::open`",
         "rust": "Rust, `Store::open(fs::read(..))`"}


def opening(figures: Figures) -> Lines:
    """A row for each call, since there are many."""
    sides = figures.sides([*OPENS, *PEER_COLUMNS], group="open")
    shapes = {row["length"]: row["documents"] for row in figures.find(group="open")}
    lines = [row_of("open, and get document 0", [f"{count} of {length} bytes" for length, count in shapes.items()]),
             "|---" * (len(shapes) + 1) + "|"]
    for side in sides:
        texts = [in_table(figures.spread(group="open", side=side, length=length), time_text) for length in shapes]
        lines.append(row_of(OPENS.get(side, label_of(side)), texts))
    return lines


def writing(figures: Figures) -> Lines:
    sides = ["zevk", "disk"] + PEER_COLUMNS
    lines = head("writing", sides, {"zevk": "from C", "disk": "`DiskSink`"})
    for length in LENGTHS:
        for place, name in ((MEMORY, "in memory"), (DISK, "on a disk, and synced")):
            texts = cells(figures, sides, number_text, dict(group="write", place=place, length=length))
            if any(texts):
                lines.append(row_of(f"{length} bytes, {name}", texts))
    return lines


def appending(figures: Figures) -> Lines:
    rows = figures.find(group="append")
    if not rows:
        return []
    sides = ["path", "lmdb", "sqlite", "leveldb", "rocksdb"]
    first = f"append {rows[0]['questions']} to {rows[0]['documents']} of {rows[0]['length']} bytes"
    lines = head(first, sides, {"path": "`zevk_file_append`"})
    for place, name in ((MEMORY, "in memory"), (DISK, "on a disk, and synced")):
        lines.append(row_of(name, cells(figures, sides, time_text, dict(group="append", place=place))))
    return lines


LOG_SIDES = ["log"] + LOG_PEERS


def _of_log(figures: Figures, workloads: Collection[str], title: str, name_of: Callable[[Row], str]) -> Lines:
    """A row for each of these workloads of the log, under a title with what the first row has."""
    rows = [row for row in figures.find(group="log", side="log") if row["workload"] in workloads]
    if not rows:
        return []
    lines = head(title.format(**rows[0]), LOG_SIDES)
    for row in rows:
        wanted = {key: row[key] for key in ("group", "workload", "place", "questions")}
        lines.append(row_of(name_of(row), cells(figures, LOG_SIDES, time_text, wanted)))
    return lines


def _making_name(row: Row) -> str:
    syncs = f"{row['questions']} a sync" if row["workload"] == "log_append" else "one sync at the end"
    return f"{syncs}, {'in memory' if row['place'] == MEMORY else 'on a disk'}"


def log(figures: Figures) -> Lines:
    """A row for each batch, and for one sync after all, in memory and on a disk."""
    return _of_log(figures, LOG_MAKES, "append to a log, each record of {length} bytes", _making_name)


def _reading_name(row: Row) -> str:
    return "open, and get record 0" if row["workload"] == "log_open" else "get, uniform"


def log_reading(figures: Figures) -> Lines:
    """Opening a long log and its gets."""
    return _of_log(figures, LOG_READS, "a log of {documents} records of {length} bytes", _reading_name)


def long_log(figures: Figures) -> str:
    """How much memory a process takes that writes and reads a long log."""
    rows = figures.find(group="long_log")
    if not rows:
        return "The memory of a long log is not measured yet."
    row, taken = rows[0], rows[0]["rounds"][0]
    append = time_text(taken["ns"] / taken["count"])
    return (f"A process that appends {row['documents']} records of {row['length']} bytes on a disk, {row['questions']} "
            f"a sync, and then opens the log and reads all of them has at most {taken['peak_bytes'] / 1e6:.0f} MB of "
            f"memory; an append takes {append}. That was measured once.")


RANGED = {("ranged", "ranges"): "`zevk_get_in`, a block each", ("plain_ranged", "ranges"): "floor",
          ("python", "ranges"): "Python, `RangedStore`", ("python", "ranges_many"): "the same by `get_many`"}


def ranges(figures: Figures) -> Lines:
    """Reads and bytes for each get. They don't change from round to round."""
    lines = ["| by ranges | reads a get | bytes a get | reads to open | bytes to open |", "|---|---|---|---|---|"]
    for row in figures.find(group="ranges"):
        taken = row["rounds"][0]
        name = f"{RANGED[row['side'], row['workload']]}, {row['documents']} of {row['length']} bytes"
        each = [f"{taken['reads'] / taken['count']:.2f}", f"{taken['read_bytes'] / taken['count']:.0f}"]
        lines.append(row_of(name, [*each, str(taken["open_reads"]), str(taken["open_read_bytes"])]))
    return lines if len(lines) > 2 else []


def growing(figures: Figures) -> Lines:
    sides = figures.sides(["unopened", "path", "zevk", "reader", "plain", "lmdb", "cdb"], group="growth")
    lines: Lines = []
    for workload, name in (("uniform", "a get"), ("open", "an open and a get")):
        lines += head(f"blocks: {name}", sides, {"zevk": "`zevk_locate`" if workload == "uniform" else "`zevk_open`"})
        for digits in range(2, 8):
            wanted = dict(group="growth", workload=workload, documents=10**digits)
            lines.append(row_of(f"10^{digits}", cells(figures, sides, time_text, wanted)))
        lines.append("")
    return lines[:-1]


def sizes(figures: Figures) -> Lines:
    sides = ["zevk"] + PEER_COLUMNS
    lines = head("bytes of a document", sides, {"zevk": "ours"})
    for length in LENGTHS:
        beyond = volume.excess(figures, length)
        lines.append(row_of(str(length), ["" if side not in beyond else f"{beyond[side]:.1f}" for side in sides]))
    return lines


PYTHON_WORKS = {"write": "write, by `extend`", "append": "append", "open": "open, and get document 0",
                "uniform": "get, uniform", "sequence": "get in sequence", "iterate": "iterate"}
PYTHON_CALLS = {"view": "`view`, uniform", "get_many": "`get_many`, uniform",
                "get_many_threads": "`get_many` by two threads at once, each document of both", "slice": "`store[:]`",
                "verify": "`verify`"}
IN_C = {"uniform": "the call in C, uniform", "keep_uniform": "with a copy that is kept",
        "sequence": "the call in C, in sequence", "keep_sequence": "with a copy that is kept"}


def python(figures: Figures) -> Lines:
    """The sides in Python, with the size of their files."""
    lines = head("Python", PYTHON_SIDES)
    for workload, name in PYTHON_WORKS.items():
        texts = cells(figures, PYTHON_SIDES, time_text, dict(group="python", workload=workload))
        if any(texts):
            lines.append(row_of(name, texts))
    written = [figures.middle("file_bytes", group="python", workload="write", side=side) for side in PYTHON_SIDES]
    return lines + [row_of("the file", ["" if size is None else size_text(size) for size in written])]


def python_calls(figures: Figures) -> Lines:
    """What only the package does, and the same gets in C."""
    lines = ["| of this package alone, and in C | each document |", "|---|---|"]
    for side, names in (("python", PYTHON_CALLS), ("zevk", IN_C)):
        for workload, name in names.items():
            spread = figures.spread(group="python", side=side, workload=workload)
            lines.append(row_of(name, [in_table(spread, time_text)]))
    return lines


COMMANDS = {"make": "make a store of the lines", "print_all": "print them all to a file", "print_one": "print one",
            "verify": "check it"}


def program(figures: Figures) -> Lines:
    """The program beside the shell's: a table for each text."""
    sides = {"program": "`zevkhadun`", "shell_sqlite": "`sqlite3`", "cat": "`cat FILE >OTHER`"}
    shapes = {(row["documents"], row["length"], row["place"]) for row in figures.find(group="program")}
    lines: Lines = []
    for count, length, place in sorted(shapes, key=lambda shape: shape[1]):
        wanted = dict(group="program", documents=count, length=length)
        where = "in memory" if place == MEMORY else "on a disk"
        lines += head(f"{count} lines of {length} bytes, {where}", list(sides), sides)
        for workload, name in COMMANDS.items():
            lines.append(row_of(name, cells(figures, list(sides), time_text, dict(workload=workload, **wanted))))
        files = [figures.middle("file_bytes", side=side, workload="make", **wanted) for side in sides]
        lines += [row_of("the file", ["" if size is None else size_text(size) for size in files]), ""]
    return lines[:-1]


def size_text(size: float) -> str:
    return f"{size / 1e6:.1f} MB" if size < 1e8 else f"{size / 1e6:.0f} MB"


def program_shares(figures: Figures) -> List[Spread]:
    """How many times as long as a copy of the bytes packing takes, for each text."""
    found = []
    for row in figures.find(group="program", side="cat"):
        common = dict(group="program", workload="make", documents=row["documents"], length=row["length"])
        pairs = figures.pairs(dict(side="program", **common), dict(side="cat", **common))
        found.append(spread_of([own / other for own, other in pairs]))
    return found
