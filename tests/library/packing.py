"""A program that packs the lines of its input into a store, as the examples in C and in Rust do.

What is tested is the file that it writes, and what it leaves where it fails.
"""

from __future__ import annotations

import fcntl
import os
import re
import resource
import signal
import subprocess
import time
from pathlib import Path

from harness import limited, numbers

# A store of the documents "abc", "" and "de".
THREE = bytes.fromhex(
    "6162636465 00000000 03000000 03000000 03000000 81858180808395 0300000015000000000000000008"
).ljust(56, b"\0")
MANY = numbers(100_000)
# The word by which a program replaces a file.
REPLACE = ("--replace",)


class PackingTests:
    """The tests of a program, for a test case that has it in `new_program`."""

    # Lines that the program does not keep in memory until the end.
    many = MANY

    def setUp(self) -> None:
        super().setUp()
        self.work = self.new_folder()
        self.program, self.environment = self.new_program()
        done = self.pack("store", b"abc\n\nde")
        self.assertEqual((done.returncode, done.stderr), (0, b""))

    def new_program(self) -> tuple[Path, dict[str, str]]:
        """The program, and the environment in which it runs."""
        raise NotImplementedError

    def pack(self, name: str, text: bytes, words: tuple[str, ...] = REPLACE, **how) -> subprocess.CompletedProcess:
        """Runs the program to its end."""
        command = [self.program, *words, name]
        how = {"cwd": self.work, "env": self.environment, "capture_output": True, "timeout": 120} | how
        return subprocess.run(command, input=text, **how)

    def assert_fails(self, name: str, text: bytes, others: tuple[str, ...] = (), **how) -> None:
        """It ends with status 1 and a message, and leaves the store and no other file."""
        done = self.pack(name, text, **how)
        self.assertEqual(done.returncode, 1, done.stderr)
        self.assertTrue(done.stderr, "there is no message")
        self.assert_same((self.work / "store").read_bytes(), THREE, "the store that was there")
        self.assertEqual(sorted(os.listdir(self.work)), sorted(["store", *others]))

    def test_a_store_has_the_bytes_of_the_format(self):
        self.assert_same((self.work / "store").read_bytes(), THREE, "the store")
        self.assertEqual(os.listdir(self.work), ["store"])

    def test_a_full_disk_leaves_the_old_store(self):
        self.assert_fails("store", self.many, preexec_fn=limited(resource.RLIMIT_FSIZE, 64 << 10))

    def test_a_missing_folder_is_reported(self):
        self.assert_fails("none/store", numbers(9))

    def test_a_folder_is_not_replaced(self):
        (self.work / "folder").mkdir()
        self.assert_fails("folder", numbers(9), ("folder",))

    def test_a_file_that_another_writes_is_kept(self):
        part = self.work / "store.part"
        part.write_bytes(b"another's\n")
        self.assert_fails("store", numbers(9), ("store.part",))
        self.assertEqual(part.read_bytes(), b"another's\n")

    def test_what_a_killed_pack_left_is_reported(self):
        self.kill_a_pack()
        self.assert_same((self.work / "store").read_bytes(), THREE, "the store that was there")
        self.assert_fails("store", numbers(9), ("store.part",))

    def test_an_old_store_is_replaced(self):
        self.assertEqual(self.pack("store", MANY).returncode, 0)
        self.assertEqual(os.listdir(self.work), ["store"])
        self.assertGreater((self.work / "store").stat().st_size, len(MANY))

    def test_a_file_is_replaced_only_if_that_is_asked(self):
        (self.work / "link").symlink_to("store")
        for name in ("store", "link"):
            done = self.pack(name, numbers(9), ())
            self.assertEqual(done.returncode, 1)
            self.assertIn(b"File exists", done.stderr)
            self.assert_same((self.work / "store").read_bytes(), THREE, "the store that was there")
        self.assertEqual(sorted(os.listdir(self.work)), ["link", "store"])
        self.assertEqual(self.pack("new", b"abc\n\nde", ()).returncode, 0)
        self.assert_same((self.work / "new").read_bytes(), THREE, "the new store")
        self.assertEqual(sorted(os.listdir(self.work)), ["link", "new", "store"])

    def test_a_file_that_gets_the_name_meanwhile_is_kept(self):
        how = {"cwd": self.work, "env": self.environment, "stdin": subprocess.PIPE, "stderr": subprocess.PIPE}
        with subprocess.Popen([self.program, "new"], **how) as packing:
            while not (self.work / "new.part").exists():
                self.assertIsNone(packing.poll())
            (self.work / "new").write_bytes(b"another's\n")
            errors = packing.communicate(numbers(9), timeout=60)[1]
        self.assertEqual(packing.returncode, 1)
        self.assertIn(b"File exists", errors)
        self.assertEqual((self.work / "new").read_bytes(), b"another's\n")
        self.assertEqual(sorted(os.listdir(self.work)), ["new", "store"])

    def kill_a_pack(self) -> None:
        """Kills the program when it has written a part of its store."""
        how = {"cwd": self.work, "env": self.environment, "stdin": subprocess.PIPE, "stderr": subprocess.DEVNULL}
        with subprocess.Popen([self.program, *REPLACE, "store"], **how) as packing:
            packing.stdin.write(self.many)
            packing.stdin.flush()
            for _ in range(600):
                part = self.work / "store.part"
                if packing.poll() is not None or part.exists() and part.stat().st_size:
                    break
                time.sleep(0.1)
            packing.kill()
        self.assertEqual(packing.returncode, -signal.SIGKILL)
        self.assertTrue((self.work / "store.part").stat().st_size, "the killed program left nothing")


class LockedPackingTests(PackingTests):
    """The same of a program whose writers lock the file beside, so that one that no writer holds is taken over."""

    def modes_made(self, name: str) -> list[str]:
        """The modes with which the program makes the file beside, as strace prints them."""
        trace = self.folder / "made"
        command = ["strace", "-f", "-e", "trace=openat", "-o", trace, self.program, *REPLACE, name]
        done = subprocess.run(command, input=numbers(9), cwd=self.work, env=self.environment, timeout=120)
        self.assertEqual(done.returncode, 0)
        return re.findall(r'store\.part", [^\n]*O_CREAT[^\n]*, (0\d+)\) = ', trace.read_text())

    def test_the_file_beside_is_private_until_it_has_the_mode_of_the_file(self):
        self.require("strace")
        for mode in (0o600, 0o640, 0o644):
            (self.work / "store").chmod(mode)
            self.assertEqual(self.modes_made("store"), ["0600"])
            self.assertEqual((self.work / "store").stat().st_mode & 0o777, mode)
        self.assertEqual(self.modes_made("new.store"), ["0666"])

    def test_a_file_beside_that_is_a_pipe_is_refused_at_once(self):
        os.mkfifo(self.work / "store.part")
        self.assert_fails("store", numbers(9), ("store.part",), timeout=20)

    def test_a_file_that_another_writes_is_kept(self):
        part = self.work / "store.part"
        part.write_bytes(b"another's\n")
        with open(part, "rb") as locked:
            fcntl.flock(locked, fcntl.LOCK_EX)
            self.assert_fails("store", numbers(9), ("store.part",))
            self.assertEqual(part.read_bytes(), b"another's\n")

    test_what_a_killed_pack_left_is_reported = None

    def test_what_a_killed_pack_left_is_taken_over(self):
        self.kill_a_pack()
        self.assert_same((self.work / "store").read_bytes(), THREE, "the store that was there")
        self.assertEqual(self.pack("store", b"abc\n\nde").returncode, 0)
        self.assert_same((self.work / "store").read_bytes(), THREE, "the store")
        self.assertEqual(os.listdir(self.work), ["store"])
