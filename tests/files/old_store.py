"""A test that begins with an old store."""

from __future__ import annotations

import os
import signal
import subprocess

from harness import ProgramCase

NOBODY = 65534
MIB = 1 << 20


def lines(count: int, word: bytes = b"line") -> bytes:
    """A text of numbered lines."""
    return b"".join(b"%s %d\n" % (word, i) for i in range(count))


def heed_signals() -> None:
    """A process that was started in the background may ignore these signals; its children would ignore them too."""
    for end in (signal.SIGINT, signal.SIGTERM, signal.SIGHUP):
        signal.signal(end, signal.SIG_DFL)


class OldStoreCase(ProgramCase):
    """A test in a folder with the store `a.store` of an old text."""

    OLD = b"an old line\nand one more\n"

    def setUp(self) -> None:
        super().setUp()
        self.path = self.folder / "a.store"
        self.pack_old()

    def pack_old(self) -> None:
        """Writes the old store."""
        self.pack("a.store", self.OLD)

    def text(self) -> bytes:
        """What the store holds."""
        return self.cat("a.store")

    def assert_old(self) -> None:
        """The old store is whole, and there is no unfinished file."""
        self.assertEqual(self.text(), self.OLD)
        self.assert_missing("a.store.part")

    def assert_refused(self, status: int, file: str, reason: str, *words, **how) -> None:
        """A command fails with one line, which names the file and the reason; the old store is whole and alone."""
        done = self.program.fails(status, reason, *words, **how)
        self.assertIn(file, done.stderr.decode(errors="replace"))
        self.assert_old()

    def begin(self, *words, **how) -> subprocess.Popen:
        """Starts the program in the folder."""
        return subprocess.Popen([self.program.path, *words], cwd=self.folder, **how)

    def size(self) -> int:
        """How many bytes the store has."""
        return os.path.getsize(self.path)
