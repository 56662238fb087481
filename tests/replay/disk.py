"""A model of a disk that keeps only what was synced."""

from __future__ import annotations

import itertools
from collections.abc import Iterator


class OnDisk:
    """A file: the bytes that were synced, and what was done since."""

    def __init__(self, synced: bytes = b"") -> None:
        self.synced = synced
        self.changes: list[tuple[str, int, bytes]] = []

    def after(self, changes: list[tuple[str, int, bytes]]) -> bytes:
        """The bytes after these changes of those that were synced."""
        data = bytearray(self.synced)
        for kind, place, more in changes:
            if kind == "cut":
                del data[place:]
            else:
                data[len(data):] = bytes(max(0, place - len(data)))
                data[place:place + len(more)] = more
        return bytes(data)

    def now(self) -> bytes:
        """The bytes that a read gives."""
        return self.after(self.changes)

    def sync(self) -> None:
        """Keeps all that was done."""
        self.synced = self.now()
        self.changes = []

    def kept(self) -> bytes:
        """What every crash leaves: the bytes that were synced, if all since then were written after them."""
        after = all(kind == "write" and place >= len(self.synced) for kind, place, _ in self.changes)
        return self.synced if after else b""

    def forms(self) -> list[bytes]:
        """What a crash may leave: nothing of what was not synced, all of it, a part, and other bytes."""
        if not self.changes:
            return [self.synced]
        whole, kept = self.now(), self.kept()
        kind, place, more = self.changes[-1]
        part = self.after(self.changes[:-1] + [(kind, place, more[:len(more) // 2])])
        new = len(whole) - len(kept)
        return list(dict.fromkeys([self.synced, whole, part, kept, kept + b"\xff" * new, kept + bytes(new)]))


class Disk:
    """A folder: the names that were synced, and what was done to them since."""

    def __init__(self, files: dict[str, bytes]) -> None:
        self.names = {name: OnDisk(data) for name, data in files.items()}
        self.synced = dict(self.names)
        # The name, its file or None, and the name that is gone with it.
        self.changes: list[tuple[str, OnDisk | None, str | None]] = []

    def make(self, name: str) -> None:
        """Makes an empty file, unless there is one."""
        if name not in self.names:
            self.names[name] = OnDisk()
            self.changes.append((name, self.names[name], None))

    def rename(self, old: str, new: str) -> None:
        """Gives a file another name."""
        self.names[new] = self.names.pop(old)
        self.changes.append((new, self.names[new], old))

    def remove(self, name: str) -> None:
        """Removes a name."""
        del self.names[name]
        self.changes.append((name, None, None))

    def cut(self, name: str, size: int) -> None:
        """Cuts a file."""
        self.names[name].changes.append(("cut", size, b""))

    def write(self, name: str, place: int, data: bytes) -> None:
        """Writes bytes at a place of a file."""
        self.names[name].changes.append(("write", place, data))

    def append(self, name: str, data: bytes) -> None:
        """Writes bytes at the end of a file."""
        self.write(name, len(self.names[name].now()), data)

    def copy(self, name: str, place: int, source: str, start: int, size: int) -> None:
        """Writes bytes of another file, which the system copied, at a place of a file."""
        self.write(name, place, self.names[source].now()[start:start + size])

    def clone(self, name: str, source: str) -> None:
        """Gives a file all bytes of another one, and no others: the file system shares their blocks."""
        self.cut(name, 0)
        self.write(name, 0, self.names[source].now())

    def sync(self, name: str) -> None:
        """Syncs a file, or the folder where the name is empty."""
        if name:
            self.names[name].sync()
        else:
            self.synced = dict(self.names)
            self.changes = []

    def do(self, call: tuple) -> None:
        """Does a recorded call."""
        getattr(self, call[0])(*call[1:])

    def folders(self) -> Iterator[dict[str, OnDisk]]:
        """Each folder that a crash may leave, by its names: each change of a name is done or not."""
        for kept in itertools.product([False, True], repeat=len(self.changes)):
            names = dict(self.synced)
            for (name, file, gone), is_kept in zip(self.changes, kept):
                if is_kept:
                    names.pop(gone, None)
                    names[name] = file
            yield {name: file for name, file in names.items() if file is not None}

    def left(self) -> Iterator[dict[str, bytes]]:
        """Each folder that a crash may leave, as the bytes of its files."""
        for names in self.folders():
            files = list(dict.fromkeys(names.values()))
            for forms in itertools.product(*(file.forms() for file in files)):
                data = dict(zip(files, forms))
                yield {name: data[file] for name, file in names.items()}
