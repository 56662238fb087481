"""The files that a writer makes: their names, locks, links and modes."""

import errno
import fcntl
import os
import pickle
import stat
import subprocess
import sys
import unittest
from unittest import mock

from in_folder import InFolder
from zevkhadun import Store, Writer, refusals
from zevkhadun._core import rename_new


# Writes and reads a store while the standard input and outputs are closed; the status says whether all went well.
WITHOUT_STANDARD = """
import os, sys
from zevkhadun import Store, Writer

def free():
    taken = 0
    for number in range(3):
        try:
            os.write(number, b"a message")
            taken += 1
        except OSError:
            pass
    return taken == 0

for number in range(3):
    os.close(number)
with Writer(sys.argv[1]) as writer:
    is_free = free()
    writer.put(b"a" * (2 << 20))
    is_free = is_free and free()
with Store(sys.argv[1]) as store:
    is_well = is_free and free() and list(store) == [b"a" * (2 << 20)]
os._exit(0 if is_well else 9)
"""


class Stop(Exception):
    """What a test ends a `with` by."""


class Files(InFolder):
    def test_an_exception_leaves_the_old_file_and_none_beside(self):
        self.written([b"old"])
        before = self.content()
        with self.assertRaises(Stop):
            with Writer(self.path, replace=True) as writer:
                writer.put(b"new" * (1 << 20))
                self.assertTrue(os.path.exists(self.beside))
                raise Stop
        self.assertEqual(self.content(), before)
        self.assertEqual(os.listdir(self.folder), ["a.store"])

    def test_an_exception_leaves_no_file_where_none_was(self):
        with self.assertRaises(Stop):
            with Writer(self.path):
                raise Stop
        self.assertEqual(os.listdir(self.folder), [])

    def test_the_name_is_given_at_the_end(self):
        self.written([b"old"])
        with Writer(self.path, replace=True) as writer:
            writer.put(b"new")
            self.assertEqual(self.documents(), [b"old"])
        self.assertEqual(self.documents(), [b"new"])

    def test_a_file_is_replaced_only_if_that_is_asked(self):
        self.written([b"old"])
        os.symlink("a.store", self.at("link"))
        for path in [self.path, self.at("link")]:
            with self.assertRaises(FileExistsError) as caught:
                Writer(path)
            self.assertEqual((caught.exception.errno, caught.exception.filename), (errno.EEXIST, self.path))
        self.assertEqual(sorted(os.listdir(self.folder)), ["a.store", "link"])
        self.assertEqual(self.documents(), [b"old"])
        with Writer(self.path, replace=True) as writer:
            writer.put(b"new")
        self.assertEqual(self.documents(), [b"new"])
        with self.assertRaises(TypeError):
            Writer(self.path, 16384, 8, True)

    def gets_a_file_meanwhile(self, **options):
        """A writer whose name a file gets before it is closed."""
        writer = Writer(self.path, **options)
        writer.put(b"new")
        with open(self.path, "wb") as file:
            file.write(b"another's")
        return writer

    def test_a_file_that_gets_the_name_meanwhile_is_kept(self):
        """Where the file system renames without replacing, and where the name is looked up before."""
        for renaming in [rename_new, lambda old, new: False]:
            with mock.patch("zevkhadun.output.rename_new", renaming):
                writer = self.gets_a_file_meanwhile()
                with self.assertRaises(FileExistsError) as caught:
                    writer.close()
                self.assertEqual((caught.exception.errno, caught.exception.filename), (errno.EEXIST, self.path))
                self.assertEqual((self.content(), os.listdir(self.folder)), (b"another's", ["a.store"]))
                with self.assertRaises(refusals.Failed):
                    writer.close()
                os.remove(self.path)
                with Writer(self.path) as writer:
                    writer.put(b"a")
                self.assertEqual(self.documents(), [b"a"])
                os.remove(self.path)
        self.gets_a_file_meanwhile(replace=True).close()
        self.assertEqual(self.documents(), [b"new"])

    def test_a_second_writer_is_busy(self):
        with Writer(self.path) as writer:
            writer.put(b"a")
            with self.assertRaises(refusals.Busy):
                Writer(self.path)
            with open(self.beside, "rb") as other, self.assertRaises(BlockingIOError):
                fcntl.flock(other, fcntl.LOCK_EX | fcntl.LOCK_NB)
        self.assertEqual(self.documents(), [b"a"])
        self.written([b"b"])

    def test_a_file_beside_that_another_locked_is_left_as_it_is(self):
        with open(self.beside, "wb") as other:
            other.write(b"another's")
            other.flush()
            fcntl.flock(other, fcntl.LOCK_EX)
            with self.assertRaises(refusals.Busy):
                Writer(self.path)
        self.assertEqual(self.content("a.store.part"), b"another's")

    def test_a_file_beside_that_lost_its_name_meanwhile_is_busy(self):
        def renamed(descriptor, operation):
            os.rename(self.beside, self.path)

        with mock.patch("fcntl.flock", renamed), self.assertRaises(refusals.Busy):
            Writer(self.path)
        self.assertEqual(os.listdir(self.folder), ["a.store"])

    def test_a_file_beside_that_is_a_link_is_not_opened(self):
        self.written([b"another's"], "other")
        for target in ["other", "nowhere"]:
            os.symlink(target, self.beside)
            with self.subTest(target), self.assertRaises(OSError) as caught:
                Writer(self.path)
            self.assertEqual((caught.exception.errno, caught.exception.filename), (errno.ELOOP, self.beside))
            self.assertEqual(sorted(os.listdir(self.folder)), ["a.store.part", "other"])
            os.remove(self.beside)
        self.assertEqual(self.documents("other"), [b"another's"])

    def test_the_file_is_synced_before_it_has_its_name_and_the_folder_after(self):
        seen = []

        def kept(descriptor):
            is_folder = stat.S_ISDIR(os.fstat(descriptor).st_mode)
            seen.append((is_folder, os.path.exists(self.path)))

        with mock.patch("os.fsync", kept):
            self.written([b"a"])
        self.assertEqual(seen, [(False, False), (True, True)])

    def test_what_a_crash_left_is_taken_over(self):
        with open(self.beside, "wb") as file:
            file.write(b"x" * 100000)
        self.written([b"a"])
        self.assertEqual(self.documents(), [b"a"])
        self.assertEqual(os.listdir(self.folder), ["a.store"])

    def test_the_mode_is_kept_and_links_are_followed(self):
        self.written([b"old"])
        for mode in [0o600, 0o754]:
            os.chmod(self.path, mode)
            self.written([b"new"])
            self.assertEqual(stat.S_IMODE(os.stat(self.path).st_mode), mode)
        os.symlink("a.store", self.at("link"))
        self.written([b"by link"], "link")
        self.assertTrue(os.path.islink(self.at("link")))
        self.assertEqual(self.documents(), [b"by link"])

    def test_the_file_beside_is_private_until_it_has_the_mode_of_the_file(self):
        opened = os.open
        made = []

        def opening(path, flags, mode=0o777):
            if flags & os.O_CREAT:
                made.append(mode)
            return opened(path, flags, mode)

        with mock.patch("os.open", opening):
            self.written([b"new"])
            os.chmod(self.path, 0o644)
            self.written([b"newer"])
        self.assertEqual((made, stat.S_IMODE(os.stat(self.path).st_mode)), ([0o666, 0o600], 0o644))

    def test_what_is_no_plain_file_is_refused(self):
        os.mkdir(self.path)
        with self.assertRaises(refusals.NotPlainFile):
            Writer(self.path)
        os.symlink("nowhere", self.at("link"))
        with self.assertRaises(FileNotFoundError):
            Writer(self.at("link"))
        with self.assertRaises(FileNotFoundError):
            Writer(self.at("no/such/folder"))
        self.assertEqual(sorted(os.listdir(self.folder)), ["a.store", "link"])

    def test_pipes_and_devices_are_refused_at_once(self):
        os.mkfifo(self.beside)
        with self.assertRaises(refusals.NotPlainFile) as caught:
            Writer(self.path)
        self.assertEqual((caught.exception.path, os.listdir(self.folder)), (self.beside, ["a.store.part"]))
        for end in [os.O_RDONLY, os.O_RDWR]:
            opened = os.open(self.beside, end | os.O_NONBLOCK)
            with self.assertRaises(refusals.NotPlainFile):
                Writer(self.path)
            os.close(opened)
        os.symlink("a.store.part", self.at("link"))
        for name in [self.beside, self.at("link"), "/dev/zero", "/dev/null"]:
            for open_it in [Store, Writer]:
                with self.subTest(name), self.assertRaises(refusals.NotPlainFile) as caught:
                    open_it(name)
                self.assertIn("not a plain file", str(caught.exception))
        self.assertEqual(sorted(os.listdir(self.folder)), ["a.store.part", "link"])
        self.assertTrue(stat.S_ISFIFO(os.lstat(self.beside).st_mode))

    def test_a_pipe_that_gets_the_name_before_it_is_opened_is_refused_at_once(self):
        self.written([b"a"])
        plain = os.stat(self.path)
        os.mkfifo(self.at("pipe"))
        os.mkfifo(self.at("b.store.part"))
        reader = os.open(self.at("b.store.part"), os.O_RDONLY | os.O_NONBLOCK)
        self.addCleanup(os.close, reader)
        with mock.patch("os.stat", lambda *words, **how: plain):
            for open_it in [lambda: Store(self.at("pipe")), lambda: Writer(self.at("b.store"))]:
                with self.assertRaises(refusals.NotPlainFile):
                    open_it()
        self.assertEqual(sorted(os.listdir(self.folder)), ["a.store", "b.store.part", "pipe"])

    def test_no_file_has_the_descriptor_of_a_standard_input_or_output(self):
        done = subprocess.run([sys.executable, "-c", WITHOUT_STANDARD, self.path], timeout=60)
        self.assertEqual(done.returncode, 0)
        self.assertEqual(self.documents(), [b"a" * (2 << 20)])

    def test_a_path_without_a_folder_is_in_the_current_one(self):
        before = os.getcwd()
        self.addCleanup(os.chdir, before)
        os.chdir(self.folder)
        with Writer("plain.store") as writer:
            writer.put(b"a")
        self.assertEqual(self.documents("plain.store"), [b"a"])

    def test_a_writer_and_its_folder_stay_together_where_the_program_changes_its_folder(self):
        before = os.getcwd()
        self.addCleanup(os.chdir, before)
        for name in ["one", "two"]:
            os.mkdir(self.at(name))
        os.chdir(self.at("two"))
        other = Writer("a.store")
        other.put(b"of two")
        os.chdir(self.at("one"))
        with Writer("a.store") as writer:
            writer.put(b"of one")
            os.chdir(self.at("two"))
        self.assertEqual(self.documents("one/a.store"), [b"of one"])
        self.assertEqual((os.listdir(self.at("one")), os.listdir(self.at("two"))), (["a.store"], ["a.store.part"]))
        os.chdir(self.at("one"))
        other.close()
        self.assertEqual(self.documents("two/a.store"), [b"of two"])
        dropped = Writer("b.store")
        os.chdir(before)
        dropped.discard()
        self.assertEqual((os.listdir(self.at("one")), os.listdir(self.at("two"))), (["a.store"], ["a.store"]))

    def test_a_path_through_a_link_and_back_is_that_of_the_system(self):
        before = os.getcwd()
        self.addCleanup(os.chdir, before)
        os.makedirs(self.at("there/below"))
        os.symlink("there/below", self.at("link"))
        os.chdir(self.folder)
        with Writer("link/../a.store") as writer:
            writer.put(b"a")
        self.assertEqual(sorted(os.listdir("there")), ["a.store", "below"])
        with Store("link/../a.store") as store, pickle.loads(pickle.dumps(store)) as other:
            self.assertEqual(list(other), [b"a"])


if __name__ == "__main__":
    unittest.main()
