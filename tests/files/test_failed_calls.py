"""Each call of the system by which a command writes fails in turn: the old files stay, or the new ones are whole."""

from __future__ import annotations

import os
import re
import shutil
import subprocess
import tempfile
from collections import Counter
from collections.abc import Callable, Iterator

from files.old_store import lines
from harness import ProgramCase, changed

# The calls by which files are opened, locked, given permissions, written, cut, synced, renamed and removed.
CALLS = ("openat", "flock", "chmod", "lseek", "write", "ftruncate", "fdatasync", "fsync", "rename", "unlink", "mkdir")
LINE = re.compile(r"^\d+ +(\w+)\((.*)\) += ", re.M)
# An opening of what is no file of the test: of the input, or of what the system's library reads.
OTHER = re.compile(r'^AT_FDCWD, "(/|more)')
REASON = "No space left on device"


class FailedCalls(ProgramCase):
    """A command that appends or packs the file `more`, and of which a call fails."""

    MORE = lines(3, b"new")

    def setUp(self) -> None:
        super().setUp()
        self.require("strace")
        self.write("more", self.MORE)

    def traced(self, *words: str, inject: tuple[str, ...] = ()) -> tuple[subprocess.CompletedProcess, list]:
        """Runs a command under strace with these faults: how it ends, and its calls with their arguments."""
        with tempfile.NamedTemporaryFile("r") as trace:
            faults = [word for fault in inject for word in ("-e", f"inject={fault}")]
            strace = ["strace", "-f", "-o", trace.name, "-e", f"trace={','.join(CALLS)}", *faults]
            how = {"cwd": self.folder, "stdin": subprocess.DEVNULL, "capture_output": True, "timeout": 60}
            done = subprocess.run([*strace, self.program.path, *words], **how)
            return done, LINE.findall(trace.read())

    def failures(self, begin: Callable, *words: str) -> Iterator[tuple[str, str, subprocess.CompletedProcess]]:
        """Runs a command as often as it makes calls, each time from the same beginning, and with another call that
        fails: that call, its arguments, and how the command ends."""
        begin()
        done, calls = self.traced(*words)
        self.assertEqual((done.returncode, done.stderr), (0, b""))
        number: Counter[str] = Counter()
        for call, arguments in calls:
            number[call] += 1
            if not OTHER.match(arguments):
                begin()
                done, _ = self.traced(*words, inject=(f"{call}:error=ENOSPC:when={number[call]}",))
                yield call, arguments, done


class Stores(FailedCalls):
    """The store `a.store` is written, beside the whole one `b.store`."""

    def setUp(self) -> None:
        super().setUp()
        self.old, self.whole = self.pack("a.store", b"old\n"), self.pack("b.store", self.MORE)

    def check(self, new: bytes, old: bytes | None, *words: str) -> list[str]:
        """Each call that fails is named and the last one; before the sync of the folder the old file stays, and there
        is none beside it. Returns the calls."""
        def begin() -> None:
            (self.folder / "a.store").unlink(missing_ok=True)
            if old is not None:
                self.write("a.store", old)

        made = []
        for call, arguments, done in self.failures(begin, *words):
            made.append(call)
            with self.subTest(command=words[0], call=call, arguments=arguments):
                self.assertEqual(done.returncode, 3)
                self.assertRegex(done.stderr.decode(), f"^zevkhadun: [ab].store: [^\n]*{REASON}[^\n]*\n$")
                left = self.read("a.store") if "a.store" in self.names() else None
                self.assertEqual(left, new if call == "fsync" else old)
                self.assert_missing("a.store.part")
        self.assertEqual(made[-3:], ["fdatasync", "rename", "fsync"])
        return made

    def test_ten_calls_replace_a_store(self):
        made = self.check(self.whole, self.old, "pack", "--replace", "a.store", "more")
        # The folder is opened; the file beside is made, locked and given permissions, emptied, opened and written.
        self.assertEqual(made[:-3], ["openat", "openat", "flock", "chmod", "openat", "openat", "write"])

    def test_nine_calls_write_a_new_store(self):
        made = self.check(self.whole, None, "pack", "a.store", "more")
        self.assertEqual(made[:-3], ["openat", "openat", "flock", "openat", "openat", "write"])

    def test_a_store_is_appended_to_or_not(self):
        both = self.pack("both.store", b"old\n" + self.MORE)
        self.program.gives("append", "a.store", "more")
        appended = self.read("a.store")
        self.assertEqual(self.cat("a.store"), self.cat("both.store"), both)
        self.check(appended, self.old, "append", "a.store", "more")

    def test_stores_are_merged_or_not(self):
        self.check(self.whole, self.old, "merge", "--replace", "a.store", "b.store")

    def test_a_store_is_exported_or_not(self):
        export = ("export", "--tantivy", "--replace", "a.store", "b.store")
        self.program.gives(*export)
        self.check(self.read("a.store"), self.old, *export)


class Logs(FailedCalls):
    """The log `events` of two segments and a tail."""

    OLD = b"one\ntwo\nthree\n"
    # Of these some only tell the next writer that this one ended well.
    SPARED = {"openat", "lseek", "write", "ftruncate"}

    def begin(self) -> None:
        """Begins the log again, whose last writer ended well."""
        shutil.rmtree(self.folder / "events", ignore_errors=True)
        for record in self.OLD.splitlines(keepends=True):
            self.program.gives("log", "append", "-q", "events", input=record)
            if record != b"three\n":
                self.program.gives("log", "seal", "events")

    def check(self, least: bytes, most: bytes, *words: str, seen: tuple[str, ...] = ()) -> None:
        """After each call that fails the log has its least records, those that are acknowledged, and no more than the
        most; a failure is named, and the next writer takes the log as it is. With `seen` some of it is looked at."""
        for call, arguments, done in self.failures(self.begin, "log", *words):
            with self.subTest(command=words[0], call=call, arguments=arguments):
                self.assertIn(done.returncode, (0, 3) if call in self.SPARED else (3,))
                if done.returncode:
                    self.assertIn(REASON, done.stderr.decode())
                text = self.program.gives("log", "cat", "events", *seen)
                self.program.gives("log", "append", "events")
                self.assertEqual(self.program.gives("log", "cat", "events", *seen), text)
                has_all = len(text) >= len(least if done.returncode else most)
                self.assertTrue(most.startswith(text) and has_all, text)

    def test_records_are_appended_or_not(self):
        self.check(self.OLD, self.OLD + self.MORE, "append", "events", "more", "--number")

    def test_a_tail_is_sealed_or_not(self):
        self.check(self.OLD, self.OLD, "seal", "events")

    def test_segments_are_joined_or_not(self):
        self.check(self.OLD, self.OLD, "compact", "events")

    def test_segments_are_removed_or_not(self):
        self.check(b"three\n", b"three\n", "drop", "events", "--before", "2", seen=("--from", "2"))

    def begin_damaged(self) -> None:
        """The same, and a byte is changed in a batch of the tail after which another follows."""
        self.begin()
        self.program.gives("log", "append", "-q", "events", input=b"four\n")
        tail = self.read("events/tail.log")
        self.write("events/tail.log", changed(tail, tail.index(b"three"), b"T"))

    def test_a_damaged_tail_is_repaired_or_not(self):
        """After each call that fails the damaged bytes are in a file of the log, and another repair succeeds."""
        for call, arguments, done in self.failures(self.begin_damaged, "log", "repair", "events"):
            with self.subTest(call=call, arguments=arguments):
                self.assertIn(done.returncode, (0, 3) if call in self.SPARED else (3,))
                self.program.gives("log", "repair", "events")
                self.assertEqual(self.program.gives("log", "cat", "events"), b"one\ntwo\n")
                kept = [path.read_bytes() for path in (self.folder / "events").glob("tail.cut.*[0-9]")]
                self.assertTrue(any(b"Three" in content and b"four" in content for content in kept))

    def renames_a_tail(self, *words: str) -> bool:
        """Whether a writer that appends replaces the tail, since it doesn't rely on the one that is there."""
        done, calls = self.traced("log", "append", "events", "more", *words)
        self.assertEqual(done.returncode, 0, done.stderr)
        return any(call == "rename" and "tail.log" in arguments for call, arguments in calls)

    def test_no_later_writer_relies_on_a_tail_of_which_a_sync_failed(self):
        self.begin()
        self.assertFalse(self.renames_a_tail(), "the last writer ended well")
        # The second fault kills it once it would say that it ended.
        for faults in (["fdatasync:error=EIO"], ["fdatasync:error=EIO", "lseek:signal=KILL:when=2"]):
            with self.subTest(faults):
                self.begin()
                done, _ = self.traced("log", "append", "events", "more", inject=tuple(faults))
                self.assertNotEqual(done.returncode, 0)
                self.assertTrue(self.renames_a_tail())
                self.assertFalse(self.renames_a_tail(), "the tail is a new one")

    def test_a_folder_is_synced_in_the_one_that_it_is_in(self):
        for call in ("mkdir", "fsync"):
            shutil.rmtree(self.folder / "events", ignore_errors=True)
            done, calls = self.traced("log", "append", "events", "more", inject=(f"{call}:error=ENOSPC:when=1",))
            self.assertEqual((done.returncode, calls[-1][0]), (3, "write"))
            self.assertIn(REASON, done.stderr.decode())
            self.assertNotIn("tail.log", os.listdir(self.folder / "events") if call == "fsync" else [])
