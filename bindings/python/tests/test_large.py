"""Stores that are larger than memory, and documents that are long."""

import os
import subprocess
import sys
import tempfile
import tracemalloc
import unittest

from sparse import BLOCK, PERIOD, last_of, write_sparse
from zevkhadun import RangedStore, Store, Stores, Writer

# Opens a store with this much memory beside that of the file, and reads its last document.
LITTLE = """
import os, resource, sys
from zevkhadun import NoMemory, Store

with open("/proc/self/statm") as pages:
    used = int(pages.read().split()[0]) * resource.getpagesize()
most = used + os.path.getsize(sys.argv[1]) + int(sys.argv[2])
resource.setrlimit(resource.RLIMIT_AS, (most, most))
try:
    print(Store(sys.argv[1])[-1].decode())
except NoMemory:
    print("no memory")
"""


def memory():
    """How many bytes of memory and swap the machine has; 0 where the system doesn't tell."""
    try:
        with open("/proc/meminfo", encoding="ascii") as lines:
            sizes = dict(line.split()[:2] for line in lines)
    except OSError:
        return 0
    return 1024 * (int(sizes["MemTotal:"]) + int(sizes["SwapTotal:"]))


class Large(unittest.TestCase):
    def setUp(self):
        folder = tempfile.TemporaryDirectory()
        self.addCleanup(folder.cleanup)
        self.path = os.path.join(folder.name, "a.store")

    def test_a_store_larger_than_memory_and_swap_is_read(self):
        blocks = max(40 * 10**9, memory() + 10**9) // BLOCK + 1
        if blocks > PERIOD:
            self.skipTest(f"{memory()} bytes of memory are more than the store of this test can have")
        try:
            write_sparse(self.path, blocks)
        except OSError as error:
            self.skipTest(f"no file of {blocks * BLOCK} bytes can be written: {error}")
        self.assertGreater(os.path.getsize(self.path), 40 * 10**9)
        with Store(self.path) as store:
            self.assertEqual(len(store), 2 * blocks)
            for block in range(blocks):
                self.assertEqual(store[2 * block + 1], last_of(block))
            self.assertEqual(store[-1], last_of(blocks - 1))
            self.assertEqual(store.get_many(range(1, 2 * blocks, 2)), [last_of(block) for block in range(blocks)])
            self.assertEqual(store[-1::-2], [last_of(block) for block in reversed(range(blocks))])
            with store.view(-2) as hole:
                self.assertEqual((hole.nbytes, hole[-1]), (BLOCK - len(last_of(0)) - 12, 0))
            with Stores([store, store]) as stores:
                self.assertEqual((len(stores), stores[-1]), (4 * blocks, last_of(blocks - 1)))

    def test_a_range_of_a_store_larger_than_memory_is_read(self):
        write_sparse(self.path, 10)
        with open(self.path, "rb") as file, RangedStore(
            lambda start, length: os.pread(file.fileno(), length, start), os.path.getsize(self.path)
        ) as store:
            self.assertEqual((len(store), store.size), (20, os.path.getsize(self.path)))
            self.assertEqual(store.block_of(19), (18, 20, 9 * BLOCK, BLOCK))

    def test_a_store_is_opened_where_there_is_little_memory(self):
        """With too little for the longest table of its index, and with too little beside such a table."""
        count = 100_000
        with Writer(self.path, block_size=1, period=2) as writer:
            writer.extend(b"%d" % number for number in range(count))
        with Store(self.path) as store:
            longest = 8 * (store.size - store.data_size)
        self.assertGreater(longest, 50 * count)
        for room, printed in [(longest // 9, "no memory"), (longest * 3 // 4, "99999"), (longest + (1 << 20), "99999")]:
            command = [sys.executable, "-c", LITTLE, self.path, str(room)]
            self.assertEqual(subprocess.check_output(command, text=True, timeout=60), f"{printed}\n")

    def test_an_iteration_holds_one_document_at_a_time(self):
        count, length = 10, 10 << 20
        with Writer(self.path) as writer:
            for _ in range(count):
                writer.put(bytes(length))
        with Store(self.path) as store:
            tracemalloc.start()
            self.addCleanup(tracemalloc.stop)
            self.assertEqual(sum(map(len, store)), count * length)
            peak = tracemalloc.get_traced_memory()[1]
        self.assertLess(peak, 2 * length)


if __name__ == "__main__":
    unittest.main()
