"""A read of an open store or log that fails is reported with its name and what the system said."""

import os
import subprocess

from files.old_store import OldStoreCase, lines


class FailedReads(OldStoreCase):
    WIDE = lines(20_000, b"a line of some length")

    def setUp(self):
        super().setUp()
        self.require("strace")

    def assert_reported(self, name, path, when, *words):
        """The read of this path that has this number fails, and each one after it."""
        inject = ["-f", "-o", os.devnull, "-P", path, "-e", f"inject=pread64:error=EIO:when={when}+"]
        done = subprocess.run(
            ["strace", *inject, self.program.path, *words],
            cwd=self.folder,
            stdout=subprocess.DEVNULL,
            stderr=subprocess.PIPE,
            timeout=60,
        )
        with self.subTest(words=words, when=when):
            self.assertEqual(done.returncode, 3)
            self.assertIn(f"zevkhadun: {name}: Input/output error", done.stderr.decode())

    def test_each_command_on_a_store_names_the_file_and_the_reason(self):
        self.pack("a.store", self.WIDE)
        for words in (
            ["get", "a.store", "7"],
            ["cat", "a.store"],
            ["inspect", "a.store"],
            ["verify", "a.store"],
            ["export", "--tantivy", "out", "a.store"],
        ):
            for when in (1, 2, 3, 4):
                self.assert_reported("a.store", "a.store", when, *words)

    def test_the_look_for_what_is_broken_names_the_file_and_the_reason(self):
        self.pack("a.store", self.WIDE)
        stored = bytearray((self.folder / "a.store").read_bytes())
        stored[-40] ^= 0x55
        (self.folder / "a.store").write_bytes(stored)
        done = self.program.run("verify", "-q", "a.store")
        self.assertEqual(done.returncode, 1)
        self.assertIn("index: layer", done.stdout.decode())
        for when in (4, 5):
            self.assert_reported("a.store", "a.store", when, "verify", "a.store")

    def test_an_input_that_is_copied_is_named_with_the_reason(self):
        self.pack("a.store", self.WIDE)
        (self.folder / "more").write_bytes(b"one more\n")
        for words, reads in ((["merge", "out", "a.store"], 7), (["append", "a.store", "more"], 3)):
            for when in range(1, reads + 1):
                self.assert_reported("a.store", "a.store", when, *words)

    def test_each_command_on_a_log_names_the_folder_and_the_reason(self):
        self.program.gives("log", "append", "ev", input=self.WIDE)
        self.program.gives("log", "seal", "ev")
        (segment,) = [name for name in os.listdir(self.folder / "ev") if name.endswith(".store")]
        for words in (["log", "get", "ev", "7"], ["log", "cat", "ev"]):
            self.assert_reported("ev", f"ev/{segment}", 3, *words)
