"""A command reads one file from beginning to end, whatever takes its name meanwhile."""

import os
import subprocess
import time

from files.old_store import OldStoreCase, lines
from harness import changed


class OpenedOnce(OldStoreCase):
    WIDE = lines(200_000, b"an old line of some length")

    def setUp(self):
        super().setUp()
        self.pack("a.store", self.WIDE)

    def test_a_store_that_is_replaced_between_two_blocks_is_read_to_its_end(self):
        """The name goes to a store whose blocks are at the same places."""
        new = self.WIDE.replace(b"old", b"new")
        with self.begin("cat", "a.store", stdout=subprocess.PIPE) as reading:
            begun = reading.stdout.read(1)
            self.pack("a.store", new)
            self.assert_documents("a.store", new)
            self.assert_same(begun + reading.stdout.read(), self.WIDE, "what came")
        self.assertEqual(reading.returncode, 0)

    def test_a_store_that_is_replaced_after_its_first_open_is_read_to_its_end(self):
        """A second open by name would meet another file: it is delayed until the file is replaced."""
        self.require("strace")
        calls = self.folder / "calls"
        hold = ["-P", self.path, "-e", "trace=openat", "-e", "inject=openat:delay_enter=2000000:when=2+"]
        command = ["strace", "-f", *hold, "-o", calls, self.program.path, "cat", self.path]
        reader = subprocess.Popen(command, stdout=subprocess.PIPE, stderr=subprocess.DEVNULL)
        for _ in range(500):
            if calls.exists() and calls.stat().st_size:
                break
            time.sleep(0.01)
        self.pack("a.store", self.WIDE.upper())
        given, _ = reader.communicate(timeout=60)
        self.assertEqual(reader.returncode, 0)
        self.assert_same(given, self.WIDE, "what came")

    def opened(self, *words, **how):
        """How often a command opens the store by its name."""
        self.require("strace")
        calls = self.folder / "calls"
        command = ["strace", "-f", "-o", calls, "-e", "trace=open,openat", self.program.path, *words]
        subprocess.run(command, stdout=subprocess.DEVNULL, timeout=120, **how)
        return calls.read_text(encoding="utf-8").count(f'"{self.path}"')

    def test_each_command_that_reads_opens_its_store_once(self):
        page = self.folder / "page.html"
        for words in (["cat", self.path], ["verify", "-q", self.path], ["inspect", self.path, "--html", page]):
            with self.subTest(words[0]):
                self.assertEqual(self.opened(*words), 1)

    def test_verify_opens_a_store_with_a_broken_index_once(self):
        self.write("a.store", changed(self.read("a.store"), -40, b"\xff" * 12))
        self.assertEqual(self.program.run("verify", "a.store").returncode, 1)
        self.assertEqual(self.opened("verify", self.path, stderr=subprocess.DEVNULL), 1)

    def test_a_summary_is_shown_without_an_open(self):
        self.path.unlink()
        terminal, shown = os.openpty()
        self.addCleanup(os.close, terminal)
        self.addCleanup(os.close, shown)
        source = self.write("lines", self.OLD)
        self.assertEqual(self.opened("pack", self.path, source, stderr=shown), 0)
        text = os.read(terminal, 1 << 16).decode()
        self.assertRegex(text, f"2 documents, {self.size()} bytes, 1 blocks?, ")
