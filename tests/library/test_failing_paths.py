"""Each call of the system that a writer by path makes fails in turn, for each way in which bytes are shared."""

import os
import subprocess

from library.compiling import ARRAYS, EXAMPLES, PATHS, SOURCES, WARNINGS, LibraryCase, default_compiler, names_in
from library.compiling import prefix, wrapped

OLD, NEW = b"an old line\n" * 40, b"a new line\n" * 9
# What bindings/c/tests/failing_paths.c wraps, and those of its calls without which a store is written all the same: an
# index is decoded twice where there is no memory for a table that is surely long enough.
WRAPPED = r"(?:^WRAPPED\([^,]*, |__wrap_)([a-z0-9_]+)"
MEMORY = {"malloc", "calloc", "realloc", "strdup"}
SPARED = {"fchown", "ioctl", "copy_file_range", "close", "malloc"}


class WrappedCase(LibraryCase):
    def built(self, folder, name):
        """An example over the sources by path, of which the environment lets calls fail."""
        names = [name for name in names_in(SOURCES / "failing_paths.c", WRAPPED) if name != "name"]
        self.assertGreater(len(names), 20, "functions that are wrapped")
        program = folder / name[:-2]
        self.succeed(
            default_compiler(), "-std=c11", "-O1", *WARNINGS, f"-I{prefix() / 'include'}", "-o", program,
            *wrapped(names), EXAMPLES / name, SOURCES / "failing_paths.c", ARRAYS, *PATHS,
            prefix() / "lib/libzevkhadun.a",
        )
        return program


class FailingPaths(WrappedCase):
    def setUp(self):
        super().setUp()
        self.program = self.built(self.new_folder(), "pack_lines.c")
        self.old = self.packed(OLD)
        self.new = self.packed(NEW, "--replace")
        self.write("a.store", self.old)
        self.appended = self.packed(NEW, "--append")
        self.write("a.store", self.old)

    def pack(self, text, *words, **names):
        """Packs lines into a.store, in an environment with these names."""
        how = {"cwd": self.folder, "env": os.environ | names, "capture_output": True, "timeout": 60}
        return subprocess.run([self.program, *words, "a.store"], input=text, **how)

    def packed(self, text, *words, **names):
        """The bytes of a.store after a packing in which no call fails."""
        done = self.pack(text, *words, **names)
        self.assertEqual((done.returncode, done.stderr), (0, b""))
        self.assert_missing("a.store.part")
        return self.read("a.store")

    def assert_each_failure(self, new, *words, **names):
        """Each failing call leaves the old store or the new one; after the last sync alone it is the new one."""
        replaced, failed = [], set()
        for call in range(1, 1000):
            self.write("a.store", self.old)
            done = self.pack(NEW, *words, FAIL_AT=str(call), **names)
            what = f"call {call}: {done.stderr}"
            self.assert_missing("a.store.part")
            if b"failing: " not in done.stderr:
                break
            name = done.stderr.split()[1].decode()
            if done.returncode == 0:
                self.assertIn(name, SPARED, what)
                self.assert_same(self.read("a.store"), new, what)
                continue
            self.assertEqual(done.returncode, 1, what)
            self.assertRegex(done.stderr, b"No space left|out of memory" if name in MEMORY else b"No space left")
            failed.add(name)
            is_replaced = self.read("a.store") == new
            self.assertTrue(is_replaced or self.read("a.store") == self.old, what)
            replaced += [name] if is_replaced else []
        self.assertGreater(call, 25, "calls")
        self.assertEqual(replaced, ["fsync"])
        self.assertLessEqual({"lstat", "open", "flock", "fchmod", "ftruncate", "write", "fsync", "renameat"}, failed)

    def test_each_failing_call_of_a_store_that_replaces_another(self):
        self.assert_each_failure(self.new, "--replace")

    def test_each_failing_call_of_a_new_store_leaves_it_whole_or_no_file(self):
        for old_rename in ({}, {"OLD_RENAME": "yes"}):
            failed = set()
            for call in range(1, 1000):
                (self.folder / "a.store").unlink(missing_ok=True)
                done = self.pack(NEW, FAIL_AT=str(call), **old_rename)
                self.assert_missing("a.store.part")
                if b"failing: " not in done.stderr:
                    break
                name, what = done.stderr.split()[1].decode(), f"call {call}: {done.stderr}"
                if done.returncode == 0:
                    self.assertIn(name, SPARED, what)
                    self.assert_same(self.read("a.store"), self.new, what)
                    continue
                self.assertEqual(done.returncode, 1, what)
                failed.add(name)
                # The new store has its name where the last sync fails.
                if name == "fsync" and "a.store" in self.names():
                    self.assert_same(self.read("a.store"), self.new, what)
                else:
                    self.assert_missing("a.store")
            self.assert_same(self.read("a.store"), self.new, "the store at the end")
            self.assertLessEqual({"open", "flock", "write", "fsync", "renameat2"}, failed)
            self.assertEqual("renameat" in failed, bool(old_rename))

    def test_a_file_that_takes_the_name_meanwhile_is_kept(self):
        """Where the file system renames without replacing, and where the name is looked up."""
        for old_rename in ({}, {"OLD_RENAME": "yes"}):
            (self.folder / "a.store").unlink(missing_ok=True)
            done = self.pack(NEW, TAKEN="yes", **old_rename)
            self.assertEqual((done.returncode, done.stderr), (1, b"a.store: File exists\n"))
            self.assertEqual((self.read("a.store"), self.names()), (b"", ["a.store"]))

    def test_each_failing_call_of_appending_in_each_way(self):
        for share in ("clone", "copy", "part", "none"):
            with self.subTest(share):
                self.write("a.store", self.old)
                self.assert_same(self.packed(NEW, "--append", SHARE=share), self.appended, "what is appended")
                self.assert_each_failure(self.appended, "--append", SHARE=share)

    def test_a_second_file_that_lost_its_name_is_busy(self):
        done = self.pack(NEW, "--replace", LOST="yes")
        self.assertEqual(done.returncode, 1)
        self.assertIn(b"another writer writes this file", done.stderr)
        self.assert_same(self.read("a.store"), self.old, "the store that was there")
