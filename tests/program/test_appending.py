"""`append`: documents after those of a store, which stays whole until the new one is."""

import os
import resource
import subprocess

from harness import ProgramCase, changed, limited, numbers
from program.texts import LINES, NUMBERS


class Append(ProgramCase):
    def setUp(self):
        super().setUp()
        self.old = self.pack("a.store", LINES)

    def append(self, *words, **how):
        self.program.gives("append", "a.store", *words, **how)

    def test_documents_come_after_those_of_the_store(self):
        self.write("more.txt", b"four\nfive\n")
        self.append("more.txt")
        self.append(input=b"six\n")
        self.assert_documents("a.store", LINES + b"four\nfive\nsix\n")
        self.program.prints('"documents":6,.*"sound":true', "verify", "--json", "a.store")

    def test_a_store_of_many_blocks_is_copied(self):
        self.pack("a.store", NUMBERS, "--block-size", "100")
        self.append(input=LINES)
        self.assert_documents("a.store", NUMBERS + LINES)

    def test_nothing_may_be_appended(self):
        self.append(input=b"")
        self.assert_documents("a.store", LINES)
        self.pack("a.store", b"")
        self.append(input=b"")
        self.assert_documents("a.store", b"")

    def test_the_period_is_kept(self):
        self.pack("a.store", NUMBERS, "--block-size", "100", "--period", "3")
        self.append(input=LINES)
        self.program.prints('"period":3', "stat", "--json", "a.store")
        self.program.prints('"documents":20003,.*"sound":true', "verify", "--json", "a.store")

    def test_documents_have_their_framing(self):
        self.append("--framing", "nul", input=b"a\nb\0c\0")
        self.assertEqual(self.program.gives("get", "--framing", "nul", "a.store", "3.."), b"a\nb\0c\0")


class Refused(ProgramCase):
    """A failed append leaves the store, and no other file."""

    def setUp(self):
        super().setUp()
        self.old = self.pack("a.store", LINES)

    def test_a_store_that_is_not_there_is_not_made(self):
        self.program.fails(3, "gone.store: No such file", "append", "gone.store", input=LINES)
        self.assertEqual(self.names(), ["a.store"])

    def test_a_file_that_is_no_store_is_kept(self):
        self.write("text", NUMBERS)
        self.program.fails(1, "text: unknown store version", "append", "text", input=LINES)
        self.assert_kept("text", NUMBERS)

    def test_a_store_of_version_1_is_kept(self):
        first = changed(self.old, -28, b"\1")
        self.write("first.store", first)
        self.program.fails(1, "first.store: a version 1 store can't be stacked", "append", "first.store", input=LINES)
        self.assert_kept("first.store", first)

    def test_a_damaged_store_is_kept(self):
        bad = changed(self.old, 12, b"\xff")
        self.write("bad.store", bad)
        self.program.fails(1, "bad.store: document 0 is damaged", "append", "bad.store", input=LINES)
        self.assert_kept("bad.store", bad)

    def test_a_refused_input_leaves_the_store(self):
        self.program.fails(3, "gone: No such file", "append", "a.store", "gone")
        reason = "standard input: the input ends inside a document"
        self.program.fails(1, reason, "append", "--framing", "lengths", "a.store", input=b"\5\0\0\0ab")
        self.assert_kept("a.store", self.old)

    def test_a_full_disk_leaves_the_store(self):
        small = limited(resource.RLIMIT_FSIZE, 1024)
        self.program.fails(3, "a.store: ", "append", "a.store", input=NUMBERS, preexec_fn=small)
        self.assert_kept("a.store", self.old)

    def test_a_store_is_not_written_to_the_standard_output(self):
        self.program.fails(2, "a store can't be written to standard output: '-'", "append", "-")


class OtherWriter(ProgramCase):
    """An append that waits for its input."""

    def setUp(self):
        super().setUp()
        self.old = self.pack("a.store", LINES)
        command = [self.program.path, "append", "a.store"]
        self.first = subprocess.Popen(command, cwd=self.folder, stdin=subprocess.PIPE)
        self.addCleanup(self.first.communicate)
        self.wait_for("a.store.part")

    def test_a_second_one_is_refused_and_the_first_one_ends(self):
        self.pack("b.store", LINES)
        for words in (["append", "a.store"], ["pack", "--replace", "a.store"],
                      ["merge", "--replace", "a.store", "b.store"]):
            self.program.fails(3, "a.store.part is being written by another", *words, input=b"second\n")
        self.first.communicate(b"first\n", timeout=60)
        self.assert_documents("a.store", LINES + b"first\n")

    def test_a_killed_one_leaves_the_store(self):
        self.first.kill()
        self.first.communicate()
        self.assertEqual(self.read("a.store"), self.old)
        self.program.gives("append", "a.store", input=b"more\n")
        self.assert_documents("a.store", LINES + b"more\n")
        self.assert_missing("a.store.part")


class Races(ProgramCase):
    """Appends at the same time: each one that ends with 0 is in the store."""

    def test_none_is_lost(self):
        self.pack("a.store", numbers(2000), "--block-size", "100")
        script = 'for i in 1 2 3 4 5 6 7 8; do echo $0 $i | "$1" append a.store 2>/dev/null && echo $0 $i; done; true'
        how = {"cwd": self.folder, "stdout": subprocess.PIPE}
        running = [
            subprocess.Popen(["sh", "-c", script, name, os.fspath(self.program.path)], **how) for name in "abcd"
        ]
        written = sorted(line for one in running for line in one.communicate()[0].splitlines())
        found = sorted(self.cat("a.store", "--without", "0..2000").splitlines())
        self.assertEqual(found, written)
        self.assertTrue(written, "none was written")
