"""Starting the program of a side for one workload, and reading what it prints."""

import json
import os
import re
import shutil
import subprocess
import tempfile
from dataclasses import dataclass, field
from pathlib import Path
from typing import Dict, List, NamedTuple, Optional

import instructions
import shell_sides
from plan import C_SIDES, LARGE_BATCH, LOG_MAKES, LOG_READS, MEMORY, PYTHON_SIDES, RUST_SIDES, WRITER_OF, Row

#: what crates/bench_store calls a workload of a side
STORE_WORKLOADS = {
    "reader": {"uniform": "get_uniform", "hot": "get_hot", "zipf": "get_zipf", "sequence": "get_seq",
               "iterate": "iter_raw", "open": "open", "write": "write", "stack": "stack"},
    "log": {"log_append": "log_append", "log_synced_once": "log_append", "log_open": "log_open",
            "log_uniform": "log_uniform"},
    "disk": {"uniform": "disk_uniform", "hot": "disk_hot", "zipf": "disk_zipf", "sequence": "disk_seq",
             "iterate": "disk_iter", "write": "disk_write"},
}

#: workloads whose check crates/bench_store takes over the same documents as the sides in C
SAME_CHECK = {"uniform", "hot", "zipf", "sequence", "iterate", "stack"} | LOG_MAKES | LOG_READS

#: workloads that make their store by themselves
MAKES = {"write"} | LOG_MAKES

FROM_PYTHON = Path(__file__).resolve().parent / "from_python.py"


class Failed(Exception):
    """A side failed, or did other work than the others."""


@dataclass
class Programs:
    """What is run, and where its files are. None is a program that this machine doesn't have."""

    peers: Path
    bench_store: Path
    python: Optional[Path]
    rust: Optional[Path]
    program: Path
    disk: Path
    memory: Path
    outside: Dict[str, Path] = field(default_factory=dict)

    def folder(self, place: str) -> Path:
        return self.memory if place == MEMORY else self.disk


class Answer(NamedTuple):
    """What a program printed, and the most memory that it had, in bytes."""

    stdout: str
    stderr: str
    peak_bytes: int


def _run(command: List[str], folder: Path) -> Answer:
    with tempfile.TemporaryFile("w+") as output, tempfile.TemporaryFile("w+") as errors:
        process = subprocess.Popen(command, cwd=folder, stdout=output, stderr=errors)
        _, status, usage = os.wait4(process.pid, 0)
        process.returncode = os.waitstatus_to_exitcode(status)
        output.seek(0)
        errors.seek(0)
        answer = Answer(output.read(), errors.read(), usage.ru_maxrss * 1024)
    if process.returncode != 0:
        raise Failed(f"{' '.join(command)}: {answer.stderr.strip() or process.returncode}")
    return answer


def store_path(programs: Programs, row: Row) -> Path:
    """The store that a row reads."""
    writer = WRITER_OF.get(row.side, row.side)
    kind = "log-" if row.workload in LOG_READS else ""
    many = "-many" if row.are_many else ""
    name = f"{writer}-{kind}{row.documents}-{row.length}-{row.block_size}{many}"
    return programs.folder(row.place) / name


def _command(programs: Programs, row: Row, side: str, workload: str, path: Path) -> List[str]:
    """The words for a workload of a side in C or in Python, but for the questions."""
    words = [side, workload, str(path), f"n={row.documents}", f"l={row.length}", f"threads={row.threads}"]
    if side in PYTHON_SIDES:
        return [str(programs.python), str(FROM_PYTHON), *words]
    return [str(programs.peers), *words, f"bs={row.block_size}", f"hot={row.hot}", f"many={row.are_many:d}"]


def _told(programs: Programs, row: Row, side: str, workload: str, path: Path) -> Dict[str, object]:
    """What a side in C or in Python printed of a workload."""
    questions = row.questions if workload == row.workload else LARGE_BATCH
    command = _command(programs, row, side, workload, path)
    return json.loads(_run([*command, f"q={questions}"], path.parent).stdout)


def make(programs: Programs, row: Row) -> str:
    """Makes the store that a row reads, if it isn't there. Answers the check of a walk over it, or nothing."""
    path = store_path(programs, row)
    is_file_side = row.side in C_SIDES + PYTHON_SIDES + RUST_SIDES
    if not is_file_side or row.workload in MAKES or path.exists():
        return ""
    making = "log_append" if row.workload in LOG_READS else "write"
    return str(_told(programs, row, WRITER_OF.get(row.side, row.side), making, path)["check"])


def _run_file_side(programs: Programs, row: Row) -> Dict[str, object]:
    """A side that reads a store of a file, or writes one; what it wrote or changed is removed."""
    path = store_path(programs, row)
    if row.workload not in MAKES | {"append"}:
        return _told(programs, row, row.side, row.workload, path)
    written = programs.folder(row.place) / f"{row.side}-written"
    if row.workload == "append":
        copy(path, written)
    told = _told(programs, row, row.side, row.workload, written)
    remove(written)
    return told


def _count(programs: Programs, row: Row) -> Dict[str, object]:
    """The instructions of a side in C."""
    path = store_path(programs, row)
    command = _command(programs, row, row.side, row.workload, path)
    try:
        return instructions.of_questions(command, path.parent, row.questions)
    except (OSError, ValueError, subprocess.CalledProcessError) as why:
        raise Failed(f"{row.side} {row.workload}: {why}") from why


def _run_rust(programs: Programs, row: Row) -> Dict[str, object]:
    path = store_path(programs, row)
    return json.loads(_run([str(programs.rust), str(path), f"q={row.questions}"], path.parent).stdout)


def _store_words(row: Row) -> List[str]:
    words = [f"n={row.documents}", f"l={row.length}", f"bs={row.block_size}", "reps=1"]
    if row.workload == "stack":
        words.append(f"k={row.questions}")
    elif row.workload == "log_synced_once":
        words.append(f"q={row.documents}")
    elif row.workload not in ("iterate", "write"):
        words.append(f"q={row.questions}")
    if row.workload == "hot":
        words.append(f"hot={row.hot}")
    return words


def _run_store_side(programs: Programs, row: Row) -> Dict[str, object]:
    """crates/bench_store, or a program that takes the same words and prints the same lines."""
    program = programs.outside.get(row.side, programs.bench_store)
    workload = STORE_WORKLOADS.get(row.side, STORE_WORKLOADS["reader"])[row.workload]
    answer = _run([str(program), workload] + _store_words(row), programs.folder(row.place))
    _, count, nanoseconds = answer.stdout.split()[:3]
    told: Dict[str, object] = {"count": int(count), "ns": int(nanoseconds), "peak_bytes": answer.peak_bytes}
    check = re.search(r"check=(\d+)", answer.stderr)
    if row.workload in SAME_CHECK and check:
        told["check"] = check.group(1)
    return told


def _run_shell_side(programs: Programs, row: Row) -> Dict[str, object]:
    text = shell_sides.text_of(programs.folder(row.place), row.documents, row.length)
    try:
        return shell_sides.run(row.side, row.workload, programs.program, text, row.documents)
    except (OSError, ValueError, subprocess.CalledProcessError) as why:
        raise Failed(f"{row.side} {row.workload}: {why}") from why


def run(programs: Programs, row: Row) -> Dict[str, object]:
    """What one round of a row took and did."""
    if row.group == "instructions":
        return _count(programs, row)
    if row.side in C_SIDES + PYTHON_SIDES:
        return _run_file_side(programs, row)
    if row.side in RUST_SIDES:
        return _run_rust(programs, row)
    if row.side in shell_sides.WORKLOADS:
        return _run_shell_side(programs, row)
    return _run_store_side(programs, row)


def copy(path: Path, other: Path) -> None:
    if path.is_dir():
        shutil.copytree(path, other)
    else:
        shutil.copyfile(path, other)


def remove(path: Path) -> None:
    if path.is_dir():
        shutil.rmtree(path)
    else:
        path.unlink()
