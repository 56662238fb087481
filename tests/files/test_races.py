"""Two writers of one name, and a file that changes while it is read."""

import os
import signal
import subprocess
import time

from files.old_store import MIB, OldStoreCase, heed_signals, lines


class Writers(OldStoreCase):
    def begun(self):
        """A writer that has begun, and waits for its input."""
        how = {"stdin": subprocess.PIPE, "stderr": subprocess.PIPE, "preexec_fn": heed_signals}
        writing = self.begin("pack", "--replace", "a.store", **how)
        for _ in range(1000):
            if "a.store.part" in self.names():
                return writing
            time.sleep(0.01)
        writing.kill()
        writing.communicate()
        return self.fail("the writer has not begun")

    def test_a_second_writer_is_refused_and_the_first_one_ends(self):
        first = self.begun()
        reason = "a.store.part is being written by another"
        self.program.fails(3, reason, "pack", "--replace", "a.store", input=b"second\n")
        self.assertEqual(self.text(), self.OLD)
        first.communicate(b"first\n", timeout=60)
        self.assertEqual(first.returncode, 0)
        self.assertEqual(self.text(), b"first\n")
        self.assertEqual(self.names(), ["a.store"])
        self.pack("a.store", b"third\n")
        self.assertEqual(self.text(), b"third\n")

    def test_an_interrupted_writer_leaves_the_old_store(self):
        for end in (signal.SIGINT, signal.SIGTERM, signal.SIGHUP):
            with self.subTest(end.name):
                writing = self.begun()
                writing.send_signal(end)
                writing.communicate(timeout=60)
                self.assertNotEqual(writing.returncode, 0)
                self.assertEqual(self.text(), self.OLD)
                (self.folder / "a.store.part").unlink(missing_ok=True)


class Readers(OldStoreCase):
    def setUp(self):
        super().setUp()
        self.whole = lines(2_000_000)

    def reading(self, change):
        """What a reader gives of a file that is changed once some of it came, and how it ends."""
        self.pack("a.store", self.whole)
        reader = self.begin("cat", "a.store", stdout=subprocess.PIPE, stderr=subprocess.PIPE, bufsize=0)
        first = reader.stdout.read(1000)
        change()
        rest, said = reader.communicate(timeout=60)
        return first + rest, reader.returncode, said

    def test_of_a_file_that_is_cut_a_beginning_is_read(self):
        given, status, said = self.reading(lambda: os.truncate(self.path, self.size() // 2))
        self.assertTrue(self.whole.startswith(given), "what came is no beginning")
        self.assertEqual(given == self.whole, status == 0, said)
        self.assertIn(status, (0, 3), said)

    def test_a_file_that_grows_is_read_as_it_was(self):
        def grow():
            with open(self.path, "ab") as file:
                file.write(b"x" * MIB)

        given, status, said = self.reading(grow)
        self.assertEqual((status, said), (0, b""))
        self.assert_same(given, self.whole, "what came")
