"""The program `zevkhadun` beside what a shell has: `sqlite3`, and `cat FILE >OTHER` as the floor.

Each makes a file of the lines of a text, prints all, prints one and checks its file. `sqlite3` imports the lines
into a table of one column, with no journal and no syncs, and checks its file by `PRAGMA integrity_check`.
"""

import os
import subprocess
import time
from pathlib import Path
from typing import Callable, Dict, Iterator, List

LONG = 1000
IMPORT = """PRAGMA journal_mode = OFF;
PRAGMA synchronous = OFF;
CREATE TABLE documents (line);
.separator "\\037" "\\n"
.import "{text}" documents
"""

#: what each side does
WORKLOADS = {
    "program": ["make", "print_all", "print_one", "verify"],
    "shell_sqlite": ["make", "print_all", "print_one", "verify"],
    "cat": ["make"],
}


def lines(count: int, length: int) -> Iterator[bytes]:
    """Lines of LONG bytes, or else of some 20."""
    if length == LONG:
        rest = b"x" * (LONG - 11) + b"\n"
        return (b"%010d" % number + rest for number in range(count))
    return (b"%d\n" % (number * 0x9E3779B97F4A7C15 % 2**64) for number in range(count))


def text_of(folder: Path, count: int, length: int) -> Path:
    """A file of these lines, which is made if it is not there."""
    text = folder / f"lines-{count}-{length}"
    if not text.exists():
        with open(text, "wb", buffering=1 << 20) as file:
            file.writelines(lines(count, length))
    return text


def ran(words: List[str], given: bytes = b"", output: str = os.devnull) -> int:
    """The nanoseconds that a command took."""
    with open(output, "wb") as file:
        start = time.perf_counter_ns()
        subprocess.run(words, input=given, stdout=file, check=True)
        return time.perf_counter_ns() - start


def made(path: Path, words: List[str], given: bytes = b"") -> int:
    """The nanoseconds that a command took to make a new file."""
    path.unlink(missing_ok=True)
    return ran(words, given)


def _program(program: Path, text: Path, number: int) -> Dict[str, Callable[[], int]]:
    store, words = file_of("program", text), [str(program)]
    return {
        "make": lambda: made(store, words + ["pack", str(store), str(text)]),
        "print_all": lambda: ran(words + ["cat", str(store)], output=f"{text}.out"),
        "print_one": lambda: ran(words + ["get", str(store), str(number)]),
        "verify": lambda: ran(words + ["verify", str(store)]),
    }


def _sqlite(text: Path, number: int) -> Dict[str, Callable[[], int]]:
    base = file_of("shell_sqlite", text)
    words = ["sqlite3", str(base)]
    one = f"SELECT line FROM documents WHERE rowid = {number + 1};"
    return {
        "make": lambda: made(base, words, IMPORT.format(text=text).encode()),
        "print_all": lambda: ran(words + ["SELECT line FROM documents;"], output=f"{text}.out"),
        "print_one": lambda: ran(words + [one]),
        "verify": lambda: ran(words + ["PRAGMA integrity_check;"]),
    }


def file_of(side: str, text: Path) -> Path:
    """The file that a side makes of a text."""
    return text.with_name(f"{text.name}-{side}")


def run(side: str, workload: str, program: Path, text: Path, count: int) -> Dict[str, object]:
    """What a command of a side took; one that prints prints the line in the middle."""
    path = file_of(side, text)
    copy = {"make": lambda: ran(["cat", str(text)], output=str(path))}
    commands = {"program": lambda: _program(program, text, count // 2),
                "shell_sqlite": lambda: _sqlite(text, count // 2), "cat": lambda: copy}[side]()
    if workload != "make" and not path.exists():
        commands["make"]()
    nanoseconds = commands[workload]()
    if workload == "print_all" and Path(f"{text}.out").stat().st_size != text.stat().st_size:
        raise ValueError(f"{side} prints another text")
    Path(f"{text}.out").unlink(missing_ok=True)
    return {"count": 1, "ns": nanoseconds, "file_bytes": path.stat().st_size}
