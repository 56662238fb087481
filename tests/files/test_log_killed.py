"""A log's process that is killed at any moment loses no record whose number it had printed."""

import shutil
import subprocess
import tempfile
import time
from pathlib import Path

from files.old_store import lines
from harness import ProgramCase

# How many records there are to append, after those that the log has.
MORE = 1000
MOMENTS = 200
# After this many moments a new log is begun, since each segment of a log is an open file.
MOMENTS_A_LOG = 20
# How often all moments of a command are tried, until kills came before its end and after it.
ROUNDS = 5
# A process that is killed gets less of a busy machine than the one that kills it, which then isn't late.
SLOWED = ("nice", "-n", "19")
# A file system in memory, where there is one: the system keeps what a killed process wrote, and syncs cost nothing.
MEMORY = Path("/dev/shm")


class Killed(ProgramCase):
    """Appends with a sync for each record, and with a segment for each few of them."""

    WORDS = ("log", "append", "events", "--number", "--sync", "every", "--seal-size", "2K")

    def new_folder(self):
        """Makes a folder in memory that is removed after the test."""
        folder = Path(tempfile.mkdtemp(prefix="zevkhadun-", dir=MEMORY if MEMORY.is_dir() else None))
        self.addCleanup(shutil.rmtree, folder, ignore_errors=True)
        return folder

    def setUp(self):
        super().setUp()
        self.text = lines(MORE * (MOMENTS_A_LOG + 2))
        self.ends = [i + 1 for i, byte in enumerate(self.text) if byte == ord("\n")]

    def records(self):
        """The records of the log."""
        return self.program.gives("log", "cat", "events")

    def segment_count(self, log="events"):
        """How many segments a log has."""
        return len(list((self.folder / log).glob("*.store")))

    def input_from(self, count):
        """The text of the records after this many."""
        start = self.ends[count - 1] if count else 0
        self.write("input", self.text[start:self.ends[count + MORE - 1]])

    def append_until(self, count, seen, *words):
        """Appends records after this many, ends that once this many numbers were seen, and returns how many records had
        theirs printed."""
        self.input_from(count)
        with subprocess.Popen([*SLOWED, self.program.path, *self.WORDS, *words, "input"], cwd=self.folder,
                              stdout=subprocess.PIPE) as writing:
            printed = b"".join(writing.stdout.readline() for _ in range(seen))
            writing.kill()
            printed += writing.stdout.read()
        numbers = printed.split(b"\n")[:-1]
        self.assertEqual(numbers, [b"%d" % (count + i) for i in range(len(numbers))])
        return count + len(numbers)

    def test_no_acknowledged_record_is_lost(self):
        self.kill_at(MOMENTS)

    def test_no_acknowledged_record_is_lost_with_two_syncs(self):
        self.kill_at(MOMENTS // 4, "--two-syncs")

    def kill_at(self, moments, *words):
        """Appends with these words too, and kills the process at that many moments."""
        count = killed_in_the_midst = segments = 0
        for moment in range(moments):
            if moment % MOMENTS_A_LOG == 0:
                segments += self.segment_count()
                shutil.rmtree(self.folder / "events", ignore_errors=True)
                count = 0
            acknowledged = self.append_until(count, moment * MORE // moments, *words)
            # A kill before the beginning leaves no log.
            text = self.records() if (self.folder / "events" / "tail.log").exists() else b""
            found = text.count(b"\n")
            self.assertEqual(text, self.text[:len(text)], f"other records, at moment {moment}")
            self.assertGreaterEqual(found, acknowledged, f"lost, at moment {moment}")
            # The record that was being written when the process ended may be there, too.
            self.assertLessEqual(found, acknowledged + 1, f"records from nowhere, at moment {moment}")
            killed_in_the_midst += count < found < count + MORE
            count = found
        self.assertGreater(killed_in_the_midst, moments // 10, "most kills came before or after the records")
        self.assertGreater(segments, moments, "few segments")
        self.program.gives("log", "append", "events")
        self.program.gives("log", "verify", "-q", "events")

    def test_a_log_opens_after_each_of_two_kills(self):
        """The opening after a kill syncs the segments, and the mark in `lock` names each no longer than that."""
        count = self.append_until(0, MORE // 2)
        self.assertGreater(self.segment_count(), 2)
        for _ in range(2):
            count = self.append_until(self.records().count(b"\n"), 1)
        self.assertGreaterEqual(self.records().count(b"\n"), count)
        self.program.gives("log", "append", "events")

    def seconds_of(self, command):
        """How long a command takes on the log."""
        start = time.monotonic()
        self.program.gives("log", command, "events")
        return time.monotonic() - start

    def killed(self, command, seconds):
        """Ends a command on the log after a time, and returns how many segments are left."""
        writing = subprocess.Popen([*SLOWED, self.program.path, "log", command, "events"], cwd=self.folder)
        time.sleep(seconds)
        writing.kill()
        writing.wait()
        return self.segment_count()

    def moments(self, is_enough):
        """Forty parts of the time that a command takes, and again while that isn't enough."""
        for _ in range(ROUNDS):
            yield from (moment / 40 for moment in range(40))
            if is_enough():
                return

    def begin_log(self):
        """Begins a log with a tail of 5000 records."""
        shutil.rmtree(self.folder / "events", ignore_errors=True)
        self.program.gives("log", "append", "events", "input")

    def test_a_killed_seal_leaves_the_records(self):
        text = self.text[:self.ends[5 * MORE - 1]]
        self.write("input", text)
        self.begin_log()
        whole = self.seconds_of("seal")
        left = set()
        for moment in self.moments(lambda: left == {0, 1}):
            self.begin_log()
            left.add(self.killed("seal", whole * 3 * moment))
            self.assertEqual(self.records(), text, f"at moment {moment}")
        self.assertEqual(left, {0, 1}, "every kill came before or after the seal")

    def test_a_killed_compaction_leaves_the_records(self):
        text = self.text[:self.ends[5 * MORE - 1]]
        self.write("input", text)
        self.program.gives("log", "append", "events", "input", "--sync", "every", "--seal-size", "2K")
        shutil.copytree(self.folder / "events", self.folder / "whole")
        whole = self.seconds_of("compact")
        left = set()
        for moment in self.moments(lambda: len(left) > 2):
            shutil.rmtree(self.folder / "events")
            shutil.copytree(self.folder / "whole", self.folder / "events")
            left.add(self.killed("compact", whole * 2 * moment))
            self.assertEqual(self.records(), text, f"at moment {moment}")
            self.program.gives("log", "verify", "-q", "events")
        self.assertGreater(len(left), 2, "every kill came before or after the compaction")
        # A kill in the sync of a segment closes the log to writers, and not a copy of it.
        shutil.copytree(self.folder / "events", self.folder / "copy")
        self.program.gives("log", "compact", "copy")
        self.assertEqual(self.segment_count("copy"), 1)
        self.assertEqual(self.program.gives("log", "cat", "copy"), text)
