"""Logs with more segments than a process may have open files, and readers beside a writer that joins or drops them."""

import json
import resource
import subprocess
from pathlib import Path

from harness import limited, numbers
from program.log_case import FIRST, LogCase

MOST_FILES = 256


def written_bytes() -> int:
    """How many bytes this process has written, and those that it waited for."""
    counts = Path("/proc/self/io").read_text().splitlines()
    return next(int(line.split()[1]) for line in counts if line.startswith("wchar:"))


class Many(LogCase):
    """3000 segments of one record each, and 256 open files."""

    COUNT = 3000

    def setUp(self):
        super().setUp()
        self.append(b"record\n")
        self.program.gives("log", "seal", "events")
        segment = self.files()[FIRST]
        for number in range(self.COUNT):
            self.change("%020d.store" % number, segment)
        self.change("tail.log", self.files()["tail.log"][:8] + self.COUNT.to_bytes(8, "little"))
        (self.folder / "events/lock").unlink()

    def gives(self, *words: str, **how) -> bytes:
        """What a command of `log` prints that may have few files open."""
        return self.program.gives("log", *words, preexec_fn=limited(resource.RLIMIT_NOFILE, MOST_FILES), **how)

    def test_each_command_takes_a_log_of_more_segments_than_it_may_open(self):
        text = b"record\n" * self.COUNT
        self.assertEqual(json.loads(self.gives("stat", "--json", "events"))["segments"], self.COUNT)
        self.assertEqual(self.gives("get", "events", "2999", "0..3", "1500"), b"record\n" * 5)
        self.assert_same(self.gives("cat", "events"), text, "other records")
        found = self.gives("verify", "events", stderr=subprocess.DEVNULL)
        self.assertIn(b"sound: 3000 records in 3000 segments", found)
        self.assertEqual(self.gives("append", "events", "--number", input=b"new\n"), b"3000\n")
        self.gives("seal", "events")
        self.gives("drop", "events", "--before", "500")
        self.gives("compact", "events")
        counts = json.loads(self.gives("stat", "--json", "events"))
        self.assertEqual((counts["first"], counts["next"], counts["segments"]), (500, self.COUNT + 1, 1))
        self.assert_same(self.gives("cat", "events"), text[500 * 7:] + b"new\n", "other records after a compaction")

    def test_each_record_is_copied_once_by_each_round_of_joins(self):
        # This syncs each segment, and writes to `lock` before and after it.
        self.gives("append", "events", input=b"")
        segments = sum(len(content) for name, content in self.files().items() if name.endswith(".store"))
        before = written_bytes()
        self.gives("compact", "events")
        self.assertLess(written_bytes() - before, segments)
        self.assertEqual(sorted(self.files()), [FIRST, "tail.log"])


class Beside(LogCase):
    """A reader of 200 segments, of which a writer joins or drops those that the reader does not have open."""

    COUNT = 200

    def setUp(self):
        super().setUp()
        self.text = b"".join(b"%d" % number * 3000 + b"\n" for number in range(1000, 1000 + self.COUNT))
        self.append(self.text, "--seal-size", "1", "--sync", "every")

    def read_beside(self, *words: str) -> tuple[bytes, int, str]:
        """What `log cat` prints while another command changes the log, how it ends, and its errors."""
        pipes = {"stdout": subprocess.PIPE, "stderr": subprocess.PIPE, "bufsize": 0}
        command = [self.program.path, "log", "cat", "events"]
        with subprocess.Popen(command, cwd=self.folder, **pipes) as reading:
            first = reading.stdout.read(1000)
            self.program.gives("log", *words)
            rest, said = reading.communicate(timeout=60)
        return first + rest, reading.returncode, said.decode()

    def test_records_of_a_segment_that_was_joined_are_read_from_the_joined_one(self):
        self.assertEqual(len(self.files()), self.COUNT + 1)
        given, status, said = self.read_beside("compact", "events")
        self.assertEqual((status, said), (0, ""))
        self.assert_same(given, self.text, "other records")
        self.assertEqual(sorted(self.files()), [FIRST, "tail.log"])

    def test_where_records_were_dropped_the_error_says_from_which_number_on_records_are_left(self):
        given, status, said = self.read_beside("drop", "events", "--before", "150")
        self.assertEqual(status, 1)
        self.assertTrue(self.text.startswith(given), "what came is no beginning")
        read = given.count(b"\n")
        self.assertEqual(said, f"zevkhadun: events: no record {read}; the log has the records 150 to 199\n")

    def test_what_is_appended_meanwhile_is_not_read(self):
        self.write("more.txt", numbers(10))
        given, status, said = self.read_beside("append", "events", "more.txt")
        self.assertEqual((given == self.text, status, said), (True, 0, ""))
