"""What a power cut leaves of a store that `pack`, `append` or `merge` publishes.

Each beginning of the recorded calls is replayed on the model of a disk: of other bytes than the synced ones none, a
part, all or other bytes are left, and other names are new or old. The program then opens what is left: it must be the
old store, or the whole new one; after the last call, the new one.
"""

from __future__ import annotations

import tempfile
from pathlib import Path

from files.old_store import OldStoreCase, lines
from harness import Program
from replay.disk import Disk
from replay.recording import recorded
from replay.wrong_orders import WRONG, old_file_removed_first

# What stands for the documents of a store that the program refuses.
REFUSED = None


class Replay:
    """Calls on a folder whose file NAME has an old text, and is to have a new one."""

    def __init__(self, program: Program, files: dict[str, bytes], name: str, new: bytes, old: bytes | None) -> None:
        self.program, self.files, self.name, self.new, self.old = program, files, name, new, old
        self.read: dict[bytes, bytes | None] = {}

    def text(self, data: bytes) -> bytes | None:
        """The documents of a store of these bytes, or REFUSED."""
        if data not in self.read:
            with tempfile.NamedTemporaryFile() as store:
                Path(store.name).write_bytes(data)
                done = self.program.run("cat", store.name)
            self.read[data] = done.stdout if done.returncode == 0 else REFUSED
        return self.read[data]

    def is_right(self, left: dict[str, bytes], has_ended: bool) -> bool:
        """Whether a folder has the old store or the whole new one under the name."""
        if self.name not in left:
            return self.old is None and not has_ended
        text = self.text(left[self.name])
        return text is not REFUSED and (text == self.new or (text == self.old and not has_ended))

    def faults(self, calls: list[tuple]) -> tuple[list[int], int]:
        """After how many calls a crash may leave neither store, and how many folders were looked at."""
        disk = Disk(self.files)
        faults, looks = [], 0
        for done in range(len(calls) + 1):
            if done:
                disk.do(calls[done - 1])
            for left in disk.left():
                looks += 1
                if not self.is_right(left, done == len(calls)):
                    faults.append(done)
        return faults, looks


class Publishing(OldStoreCase):
    """The calls of `pack`, `append` and `merge`."""

    def setUp(self) -> None:
        self.require("strace")
        super().setUp()

    def check(self, new: bytes, *words: str, before: tuple[str, ...] = ()) -> None:
        """Records the command, and replays its calls and each wrong order of them."""
        files = {name: self.read(name) for name in before}
        calls = recorded(self.program.path, self.folder, *words)
        self.assertIn(("sync", ""), calls, "the folder is not synced")
        replay = Replay(self.program, files, "a.store", new, self.OLD if "a.store" in files else None)
        faults, looks = replay.faults(calls)
        self.assertEqual(faults, [], f"a crash after that many of {calls} leaves neither store")
        self.assertGreater(looks, 10)
        for change in WRONG:
            if change is old_file_removed_first and "a.store" not in files:
                continue
            wrong = list(calls)
            change(wrong, "a.store")
            self.assertNotEqual(replay.faults(wrong)[0], [], f"not found: {change.__doc__}")

    def test_a_store_is_packed(self):
        new = lines(20000)
        self.write("new.txt", new)
        self.check(new, "pack", "--replace", "a.store", "new.txt", before=("a.store",))

    def test_a_store_is_packed_over_what_a_crash_left_beside(self):
        new = lines(100)
        self.write("new.txt", new)
        self.write("a.store.part", b"torn" * 1000)
        self.check(new, "pack", "--replace", "a.store", "new.txt", before=("a.store", "a.store.part"))

    def test_a_store_is_packed_where_there_was_none(self):
        new = lines(100)
        self.write("new.txt", new)
        self.path.unlink()
        self.check(new, "pack", "a.store", "new.txt")

    def test_documents_are_appended(self):
        new = lines(20000)
        self.write("new.txt", new)
        self.check(self.OLD + new, "append", "a.store", "new.txt", before=("a.store",))

    def test_stores_are_merged(self):
        texts = [lines(20000, b"one"), lines(5, b"two"), lines(30000, b"three")]
        names = ["1.store", "2.store", "3.store"]
        for name, text in zip(names, texts):
            self.pack(name, text)
        self.check(b"".join(texts), "merge", "--replace", "a.store", *names, before=("a.store",))
