"""A get by path takes few instructions more than zevk_locate, answers as the calls in memory do, and asks for its pages
if it is to be quick in a file that is not in memory."""

import re
import subprocess

from harness import numbers
from library.compiling import GCC, LibraryCase
from library.test_examples import ExampleCase, with_library
from vectors.files import files

# How many instructions a get by path may take more than the call of the table.
MOST = 20


class Costs(ExampleCase):
    def instructions(self, program, way, count):
        """The instructions of a program that gets this many documents."""
        callgrind = ["valgrind", "--tool=callgrind", "--callgrind-out-file=/dev/null"]
        command = [*callgrind, program, way, str(count), self.folder / "store"]
        done = subprocess.run(command, capture_output=True, text=True, timeout=120, check=True)
        return int(re.search(r"Collected : (\d+)", done.stderr)[1])

    def test_a_get_by_path_takes_at_most_twenty_instructions_more(self):
        self.require("gcc", "valgrind")
        packing = self.example("pack_lines.c")
        packed = subprocess.run([packing, self.folder / "store"], input=numbers(20000), env=with_library())
        self.assertEqual(packed.returncode, 0)
        program = self.compiled_by(GCC, "costs.c", in_cpp=False, sources=())
        path, table = (
            (self.instructions(program, way, 3000) - self.instructions(program, way, 1000)) / 2000
            for way in ("path", "table")
        )
        self.assertLessEqual(path - table, MOST, f"{path} instructions by path, {table} by the table")
        self.assertGreater(table, 20, "instructions by the table")


class Scattered(ExampleCase):
    ASKED = re.compile(r"madvise\((0x[0-9a-f]+), (\d+), MADV_WILLNEED\) = 0")

    def test_a_get_asks_for_both_of_its_pages_before_it_reads_one(self):
        self.require("gcc", "strace")
        lines = b"".join(b"%0300d\n" % number for number in range(5000))
        packing = self.example("pack_lines.c")
        packed = subprocess.run([packing, self.folder / "store"], input=lines, env=with_library())
        self.assertEqual(packed.returncode, 0)
        program, trace = self.compiled_by(GCC, "scattered.c", in_cpp=False, sources=()), self.folder / "trace"
        documents = ["0", "2500", "4999", "17"]
        told = self.succeed("strace", "-o", trace, "-e", "trace=madvise", program, self.folder / "store", *documents)
        read = [tuple(map(int, line.split())) for line in told.decode().splitlines()]
        asked = [int(start, 16) // int(size) for start, size in self.ASKED.findall(trace.read_text())]
        self.assertEqual(list(zip(asked[::2], asked[1::2])), read)
        self.assertEqual(trace.read_text().count("MADV_RANDOM) = 0"), 1)


class Vectors(LibraryCase):
    def test_each_outside_file_is_answered_by_path_as_in_memory(self):
        """The answers in memory are those of storetool (suite answers)."""
        paths = [self.write(f"{place}.store", content) for place, content in enumerate(files())]
        self.assertGreater(len(paths), 100, "files")
        by_path, in_memory = (
            self.succeed(self.compiled_by(GCC, name, in_cpp=False), *paths)
            for name in ("answers_by_path.c", "answers.c")
        )
        self.assert_same(by_path, in_memory, "the answers")
