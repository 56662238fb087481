"""The calls of a program to the system, as strace prints them, in the words of the model in `disk.py`."""

from __future__ import annotations

import os
import re
import subprocess
import tempfile
from collections.abc import Iterable
from pathlib import Path

# A line of strace: the process, the call, its arguments and its result.
LINE = re.compile(r"^\d+ +(\w+)\((.*)\) += (-?\d+)")
TEXT = re.compile(r'"((?:\\x[0-9a-f]{2})*)"')
DESCRIPTOR = re.compile(r"^(\d+)")
# The arguments of copy_file_range: a place is that of the descriptor if it is not given.
COPY = re.compile(r"(\d+), (?:\[(\d+)\]|NULL), (\d+), (?:\[(\d+)\]|NULL), ")
CLONE = re.compile(r"(\d+), [^,]*\bFICLONE\b[^,]*, (\d+)")

# Calls that change no file and no folder.
READING = {
    "access", "close", "dup", "dup2", "execve", "faccessat", "fadvise64", "fchdir", "fcntl", "flock", "fstat",
    "fstatfs", "getcwd", "getdents64", "lstat", "mmap", "newfstatat", "poll", "pread64", "preadv",
    "read", "readlink", "readlinkat", "readv", "stat", "statfs", "statx", "pselect6", "ppoll",
}

# Calls that change the mode or the owner of a file, which the model does not have.
ACCESS = {"chmod", "chown", "fchmod", "fchmodat", "fchown", "fchownat", "lchown"}


def text_of(argument: str) -> bytes:
    """The bytes of an argument that strace printed."""
    found = TEXT.search(argument)
    if found is None:
        raise ValueError(f"no text in {argument[:80]}")
    return bytes.fromhex(found.group(1).replace("\\x", ""))


class Recording:
    """The calls of a run that change the files of one folder, in the words of the model."""

    def __init__(self, folder: Path, trace: Iterable[str]) -> None:
        self.folder = os.path.realpath(folder)
        # By descriptor: the name of the open file, and the place of the next write; None for one at the file's end.
        self.paths: dict[int, str | None] = {}
        self.places: dict[int, int | None] = {}
        self.calls: list[tuple] = []
        for line in trace:
            found = LINE.match(line)
            if found and int(found.group(3)) >= 0:
                self.note(found.group(1), found.group(2), int(found.group(3)))

    def name_of(self, path: str) -> str | None:
        """The name in the folder: empty for the folder, None for what lies elsewhere."""
        path = os.path.normpath(os.path.join(self.folder, path))
        if path == self.folder:
            return ""
        head, name = os.path.split(path)
        return name if head == self.folder else None

    def note(self, call: str, arguments: str, result: int) -> None:
        """Adds a call that succeeded."""
        if call == "openat":
            self.opened(arguments, result)
        elif call in ("write", "ftruncate", "fsync", "fdatasync"):
            self.wrote(call, arguments, result)
        elif call in ("rename", "renameat", "renameat2"):
            texts = [bytes.fromhex(t.replace("\\x", "")).decode() for t in TEXT.findall(arguments)]
            self.renamed(self.name_of(texts[0]), self.name_of(texts[1]))
        elif call in ("unlink", "unlinkat"):
            self.calls.append(("remove", self.name_of(text_of(arguments).decode())))
        elif call == "lseek":
            self.places[int(DESCRIPTOR.match(arguments)[1])] = result
        elif call == "copy_file_range":
            self.copied(arguments, result)
        elif call == "ioctl":
            if found := CLONE.match(arguments):
                self.calls.append(("clone", *(self.paths[int(descriptor)] for descriptor in found.groups())))
        elif call not in READING | ACCESS:
            raise ValueError(f"the replay does not know the call {call}")

    def renamed(self, old: str | None, new: str | None) -> None:
        """Adds a rename. A file that is open has its new name from then on."""
        self.calls.append(("rename", old, new))
        self.paths = {descriptor: new if name == old else name for descriptor, name in self.paths.items()}

    def opened(self, arguments: str, descriptor: int) -> None:
        """Adds what opening a file changes."""
        name = self.name_of(text_of(arguments).decode())
        self.paths[descriptor] = name
        self.places[descriptor] = None if "O_APPEND" in arguments else 0
        if name and "O_CREAT" in arguments:
            self.calls.append(("make", name))
        if name and "O_TRUNC" in arguments:
            self.calls.append(("cut", name, 0))

    def place(self, descriptor: int, named: int | None, moved: int) -> int:
        """The place of a call in a file: the one that the call names, or that of the descriptor, which moves on."""
        if named is not None:
            return named
        self.places[descriptor] += moved
        return self.places[descriptor] - moved

    def copied(self, arguments: str, result: int) -> None:
        """Adds what the system copied from one open file to another."""
        source, start, target, end = (part and int(part) for part in COPY.match(arguments).groups())
        start, end = self.place(source, start, result), self.place(target, end, result)
        if result > 0:
            self.calls.append(("copy", self.paths[target], end, self.paths[source], start, result))

    def wrote(self, call: str, arguments: str, result: int) -> None:
        """Adds a change of an open file, or its sync."""
        descriptor = int(DESCRIPTOR.match(arguments).group(1))
        name = self.paths.get(descriptor)
        if name is None:
            return
        if call in ("fsync", "fdatasync"):
            self.calls.append(("sync", name))
        elif call == "ftruncate":
            self.calls.append(("cut", name, int(arguments.rsplit(",", 1)[1])))
        else:
            data = text_of(arguments)[:result]
            place = self.places[descriptor]
            if place is None:
                self.calls.append(("append", name, data))
            else:
                self.calls.append(("write", name, place, data))
                self.places[descriptor] = place + result


def recorded(
    program: Path, folder: Path, *words: str | Path, before: tuple[str | Path, ...] = (), kind: type = Recording
) -> list[tuple]:
    """Runs the program in the folder, and returns its calls that change the files of this folder, as `kind` notes them.

    What stands before the command may run it where the folder has other files.
    """
    with tempfile.NamedTemporaryFile("r") as trace:
        strace = ["strace", "-f", "-xx", "-s", str(1 << 26), "-e", "trace=%file,%desc", "-o", trace.name]
        done = subprocess.run([*before, *strace, program, *words], cwd=folder, capture_output=True, timeout=120)
        if done.returncode != 0:
            raise ValueError(done.stderr.decode())
        return kind(folder, trace).calls
