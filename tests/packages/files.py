"""A program of a package that packs the lines of its input: each call of the system fails in turn."""

from __future__ import annotations

import os
import re
import subprocess
from collections import Counter
from collections.abc import Iterator
from pathlib import Path

from library.packing import MANY, REPLACE, THREE, LockedPackingTests

NOBODY = 65534
# Packs over the old store on a device.
ON_DEVICE = """
cp "$2" "$1/store"
seq 200000 | "$3" --replace "$1/store"
echo $?
cmp "$2" "$1/store" && ls "$1"
"""


class PackageTests(LockedPackingTests):
    """The tests of the program, for a test case that has it in `new_program`."""

    def test_the_owner_of_the_file_is_kept(self):
        if os.geteuid():
            self.skipTest("only root gives files away")
        os.chown(self.work / "store", NOBODY, NOBODY)
        self.assertEqual(self.pack("store", MANY).returncode, 0)
        found = (self.work / "store").stat()
        self.assertEqual((found.st_uid, found.st_gid), (NOBODY, NOBODY))

    def test_a_full_device_leaves_the_old_store(self):
        done = self.on_device(ON_DEVICE, self.work / "store", self.program)
        self.assertIn(b"No space left on device", done.stderr)
        self.assertEqual((done.returncode, done.stdout), (0, b"1\nstore\n"))


class FailingCallTests:
    """Each call of the system for the file beside fails once, and all others succeed.

    For a test case that has the program in `new_program`.
    """

    many = MANY
    # The calls that come at least, and those whose failure does not matter, with how often the call came so far.
    CALLS: set[str]
    NEEDLESS: set[tuple[str, int]]

    def setUp(self):
        super().setUp()
        self.require("strace")
        self.work = self.new_folder()
        self.program, _ = self.new_program()
        self.trace = self.folder / "trace"
        self.pack([], b"abc\n\nde")

    def pack(self, strace: list[str | Path], text: bytes) -> subprocess.CompletedProcess:
        """Runs the program under strace with these options, or by itself."""
        tracer = ["strace", "-f", "-o", self.trace, *strace] if strace else []
        command = [*tracer, self.program, *REPLACE, self.work / "store"]
        return subprocess.run(command, cwd=self.work, input=text, capture_output=True, timeout=60)

    def calls(self, path: Path) -> Iterator[tuple[str, int]]:
        """The calls of a run for a path, up to the renaming: the name of each, and how often it came so far."""
        done = self.pack(["-P", path], self.many)
        self.assertEqual((done.returncode, done.stderr), (0, b""))
        seen: Counter[str] = Counter()
        for name in re.findall(r"^\d+ +(\w+)\(", self.trace.read_text(), re.M):
            seen[name] += 1
            yield name, seen[name]
            if name == "rename":
                return

    def pack_with_fault(self, path: Path, name: str, count: int) -> subprocess.CompletedProcess:
        """Runs the program over the old store; the call with this name fails when it comes this often for the path."""
        (self.work / "store").write_bytes(THREE)
        fault = f"inject={name}:error=EIO:when={count}"
        done = self.pack(["-P", path, "-e", fault], self.many)
        self.assertEqual(self.trace.read_text().count("(INJECTED)"), 1, fault)
        return done

    def test_a_call_that_fails_leaves_the_old_store_and_nothing_beside(self):
        beside = self.work / "store.part"
        calls = list(self.calls(beside))
        self.assertGreater(Counter(name for name, _ in calls)["write"], 3)
        wanted = self.CALLS | {"openat", "flock", "ftruncate", "fsync", "rename"}
        self.assertLessEqual(wanted, {name for name, _ in calls})
        for name, count in calls:
            with self.subTest(call=name, count=count):
                done = self.pack_with_fault(beside, name, count)
                is_needed = (name, count) not in self.NEEDLESS
                self.assertEqual(done.returncode, int(is_needed), done.stderr)
                self.assertEqual(b"Input/output error" in done.stderr, is_needed, done.stderr)
                self.assertEqual((self.work / "store").read_bytes() == THREE, is_needed)
                self.assertEqual(os.listdir(self.work), ["store"])

    def test_a_folder_that_cannot_be_opened_is_refused_at_first(self):
        done = self.pack_with_fault(self.work, "openat", 1)
        self.assertEqual((done.returncode, (self.work / "store").read_bytes()), (1, THREE))
        self.assertNotIn("store.part", self.trace.read_text())
        self.assertEqual(os.listdir(self.work), ["store"])

    def test_a_folder_that_is_not_synced_is_an_error_and_has_the_new_store(self):
        done = self.pack_with_fault(self.work, "fsync", 1)
        self.assertEqual(done.returncode, 1)
        self.assertIn(b"Input/output error", done.stderr)
        self.assertGreater((self.work / "store").stat().st_size, len(self.many))
        self.assertEqual(os.listdir(self.work), ["store"])
