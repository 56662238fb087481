"""A store of more than 4 GiB, in less than 200 MB of memory."""

import shutil
import subprocess

from files.old_store import OldStoreCase

MOST_MEMORY = 200_000_000


class Large(OldStoreCase):
    COUNT = 70_000
    LENGTH = 65_536

    def setUp(self):
        super().setUp()
        self.rest = b"x" * (self.LENGTH - 11) + b"\n"
        if shutil.disk_usage(self.folder).free < 12 << 30:
            self.skipTest("fewer than 12 GiB are free")

    def line(self, i):
        """Line i, with its end."""
        return b"%010d" % i + self.rest

    def end(self, process):
        """Waits for a process, which has to end with 0, without errors, and in less than 200 MB of memory."""
        self.assert_ends_within(MOST_MEMORY, process)

    def pack_lines(self, name):
        packing = self.measured("pack", name, stdin=subprocess.PIPE)
        for i in range(self.COUNT):
            packing.stdin.write(self.line(i))
        packing.stdin.close()
        self.end(packing)

    def assert_line(self, name, i):
        """Document i is line i."""
        getting = self.measured("get", name, str(i), stdout=subprocess.PIPE)
        self.assert_same(getting.stdout.read(), self.line(i), f"document {i} of {name}")
        getting.stdout.close()
        self.end(getting)

    def assert_lines(self, name):
        """The documents are all lines, and then those of the old store."""
        reading = self.measured("cat", name, stdout=subprocess.PIPE)
        for i in range(self.COUNT):
            self.assert_same(reading.stdout.read(self.LENGTH), self.line(i), f"document {i} of {name}")
        self.assertEqual(reading.stdout.read(), self.OLD)
        reading.stdout.close()
        self.end(reading)

    def test_a_store_of_more_than_4_gib_is_packed_got_and_merged(self):
        self.pack_lines("large.store")
        large = self.folder / "large.store"
        self.assertGreater(large.stat().st_size, 4 << 30)
        for number in (0, self.COUNT // 2, self.COUNT - 1):
            self.assert_line("large.store", number)
        self.end(self.measured("merge", "merged.store", "large.store", "a.store"))
        large.unlink()
        self.assert_line("merged.store", self.COUNT - 1)
        self.assert_lines("merged.store")
        self.end(self.measured("verify", "merged.store", stdout=subprocess.DEVNULL))
