"""The example that packs lines by path: full disks, kills, a second writer, links, modes and folders."""

import os
import resource
import subprocess

from harness import limited, numbers
from library.packing import MANY, REPLACE, LockedPackingTests
from library.test_examples import ExampleCase, with_library

# Packs over the old store on a device.
ON_DEVICE = """
cp store "$1/store"
"$2" --replace "$1/store"
echo $?
cmp store "$1/store" && ls "$1"
"""


class PackLines(LockedPackingTests, ExampleCase):
    def new_program(self):
        return self.example("pack_lines.c"), with_library()

    def test_a_second_writer_is_refused_and_the_first_one_ends(self):
        how = {"cwd": self.work, "env": self.environment, "stdin": subprocess.PIPE}
        with subprocess.Popen([self.program, *REPLACE, "store"], **how) as first:
            while not (self.work / "store.part").exists():
                self.assertIsNone(first.poll())
            self.assert_fails("store", numbers(9), ("store.part",))
            first.communicate(MANY, timeout=60)
        self.assertEqual(first.returncode, 0)
        self.assertEqual(os.listdir(self.work), ["store"])

    def test_a_full_device_leaves_the_old_store(self):
        done = self.on_device(ON_DEVICE, self.program, input=MANY * 4, cwd=self.work, env=self.environment)
        self.assertEqual(done.stdout, b"1\nstore\n", done.stderr)
        self.assertIn(b"No space left on device", done.stderr)

    def test_a_close_on_a_full_disk_leaves_the_old_store(self):
        self.assert_fails("store", numbers(9), preexec_fn=limited(resource.RLIMIT_FSIZE, 0))

    def test_a_link_and_the_mode_of_its_file_are_kept(self):
        (self.work / "link").symlink_to("store")
        (self.work / "store").chmod(0o640)
        if os.geteuid() == 0:
            os.chown(self.work / "store", 65534, 65534)
        before = (self.work / "store").stat()
        self.assertEqual(self.pack("link", numbers(9)).returncode, 0)
        after = (self.work / "store").stat()
        self.assertTrue((self.work / "link").is_symlink(), "the link is replaced")
        self.assertNotEqual(after.st_ino, before.st_ino)
        self.assertEqual((after.st_mode, after.st_uid, after.st_gid), (before.st_mode, before.st_uid, before.st_gid))

    def test_lines_come_after_those_of_a_store(self):
        for name, text in (("some", numbers(5000)), ("all", numbers(7000))):
            self.assertEqual(self.pack(name, text).returncode, 0)
        done = subprocess.run(
            [self.program, "--append", "some"], input=numbers(7000, 5001), cwd=self.work, env=self.environment
        )
        self.assertEqual(done.returncode, 0)
        printing = self.example("print_store.c")
        for name in ("some", "all"):
            self.assert_same(self.run_example(printing, self.work / name).stdout, numbers(7000), name)

    def test_the_file_is_that_of_the_calls_in_memory(self):
        other = self.example("pack.c")
        for name, program in (("by_path", self.program), ("in_memory", other)):
            subprocess.run([program, name], input=MANY, cwd=self.work, env=self.environment, check=True)
        self.assert_same((self.work / "by_path").read_bytes(), (self.work / "in_memory").read_bytes(), "the file")

    def test_documents_with_a_byte_0_are_printed_whole(self):
        lines = b"a\0b\n\0\nc\0\0d\n"
        self.assertEqual(self.pack("zeros", lines).returncode, 0)
        done = self.run_example(self.example("print_store.c"), self.work / "zeros")
        self.assertEqual((done.returncode, done.stdout), (0, lines), done.stderr)

    def test_a_store_that_cannot_be_printed_is_reported(self):
        printing = self.example("print_store.c")
        with open("/dev/full", "wb") as full:
            done = self.run_example(printing, self.work / "store", stdout=full, capture_output=False)
        self.assertEqual(done.returncode, 1)
        self.assertEqual(self.run_example(printing, self.work / "none").returncode, 1)
