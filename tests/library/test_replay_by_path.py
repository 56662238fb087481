"""What a power cut leaves of a store that is written by path: the calls of a writer, replayed up to each point.

Appending is replayed in each of its three ways. That bytes are read and written is had by wrapped calls, which share
nothing. The system copies bytes on the file system of the tests, and shares blocks on a btrfs in a file, where root may
mount one. What is not shown: a copy by a server, as NFS has it, and other file systems that share blocks.
"""

import os
import subprocess

from harness import Program, numbers
from library.compiling import EXAMPLES, LibraryCase, default_compiler
from library.test_failing_paths import WrappedCase
from replay.disk import Disk
from replay.recording import recorded
from replay.test_publishing import Replay
from replay.wrong_orders import WRONG, old_file_removed_first

OLD = b"an old line\nand one more\n" * 400
# Runs a command in a folder that is a btrfs of this image, and has a copy of these files. The mount ends with it.
IN_IMAGE = 'mount -o loop "$1" "$2" && cp "$3"/* "$2" && cd "$2" && shift 3 && exec "$@"'
IMAGE_SIZE = 120 << 20


class Printing(Program):
    """The program that prints a store by path, in place of `zevkhadun cat`."""

    def run(self, _command, *words, **how):
        return super().run(*words, **how)


class Replaying:
    """Checks of recorded calls, for a test case that has both programs in `programs`, a folder of its own."""

    def setUp(self):
        super().setUp()
        self.require("strace")
        self.programs = self.new_folder()

    def pack_old(self):
        """Writes the old store, and returns the files of the folder."""
        subprocess.run([self.packing, "a.store"], input=OLD, cwd=self.folder, check=True)
        return {"a.store": self.read("a.store")}

    def recorded(self, words, text, before=()):
        """The calls of a packing of a text."""
        (self.programs / "input").write_bytes(text)
        command = f"exec '{self.packing}' {words} a.store <'{self.programs}/input'"
        return recorded("/bin/sh", self.folder, "-c", command, before=before)

    def check(self, calls, new, files):
        """Replays the calls and each wrong order of them."""
        replay = Replay(Printing(self.printing, self), files, "a.store", new, OLD if files else None)
        faults, looks = replay.faults(calls)
        self.assertEqual(faults, [], f"a crash after so many of {calls} leaves neither store")
        self.assertGreater(looks, 10)
        for change in WRONG:
            if change is not old_file_removed_first or files:
                wrong = list(calls)
                change(wrong, "a.store")
                self.assertNotEqual(replay.faults(wrong)[0], [], f"not found: {change.__doc__}")

    def check_shared(self, calls, files, kind):
        """The calls append to the old store, whose bytes come by this kind of call."""
        self.assertIn(kind, [call[0] for call in calls])
        written = b"".join(call[3] for call in calls if call[0] == "write")
        self.assertNotIn(b"an old line", written, "shared bytes are not written")
        self.check(calls, OLD + numbers(20000), files)
        without = [call for call in calls if call[0] != kind]
        replay = Replay(Printing(self.printing, self), files, "a.store", OLD + numbers(20000), OLD)
        self.assertIn(len(without), replay.faults(without)[0], "shared bytes that are missing")


class ReplayedPacking(Replaying):
    """The tests of the program that packs, for such a test case."""

    def test_a_store_is_replaced(self):
        files = self.pack_old()
        self.check(self.recorded("--replace", numbers(20000)), numbers(20000), files)

    def test_a_store_is_written_where_there_was_none(self):
        self.check(self.recorded("", numbers(100)), numbers(100), {})


class ReplayByPath(ReplayedPacking, WrappedCase):
    """The wrapped calls share no bytes: the old store is written, as the model of a disk has it."""

    def setUp(self):
        super().setUp()
        names = ("pack_lines.c", "print_store.c")
        self.packing, self.printing = (self.built(self.programs, name) for name in names)

    def test_lines_are_appended(self):
        files = self.pack_old()
        calls = self.recorded("--append", numbers(20000))
        self.assertLessEqual({call[0] for call in calls}, {"make", "cut", "write", "sync", "rename"})
        self.check(calls, OLD + numbers(20000), files)


class ReplayOfSharing(Replaying, LibraryCase):
    """The calls of the library as it is, which lets the system share the old store."""

    def setUp(self):
        super().setUp()
        command = [default_compiler(), "-std=c11"]
        self.packing, self.printing = (
            self.compiled(command, EXAMPLES / name) for name in ("pack_lines.c", "print_store.c")
        )
        self.folder = self.new_folder()

    def test_lines_are_appended_to_what_the_system_copied(self):
        files = self.pack_old()
        calls = self.recorded("--append", numbers(20000))
        if "clone" in {call[0] for call in calls}:
            self.skipTest("the file system of the tests shares blocks")
        if "copy" not in {call[0] for call in calls}:
            self.skipTest("the system copies nothing on the file system of the tests")
        disk = Disk(files)
        for call in calls:
            disk.do(call)
        self.assert_same(disk.names["a.store"].now(), self.read("a.store"), "the file of the model")
        self.check_shared(calls, files, "copy")

    def test_lines_are_appended_to_blocks_that_are_shared(self):
        self.require("mkfs.btrfs", "unshare")
        files = self.pack_old()
        image = self.programs / "image"
        image.touch()
        os.truncate(image, IMAGE_SIZE)
        self.succeed("mkfs.btrfs", "--quiet", image)
        mount = self.new_folder()
        before = ("unshare", "-m", "sh", "-c", IN_IMAGE, "", image, mount, self.folder)
        if subprocess.run([*before, "true"], capture_output=True).returncode:
            self.skipTest("no btrfs can be mounted here")
        self.folder = mount
        self.check_shared(self.recorded("--append", numbers(20000), before), files, "clone")
