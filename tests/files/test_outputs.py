"""What an output may not take the place of, what is kept of the file in whose place it comes, and names of files."""

import os

from files.old_store import NOBODY, OldStoreCase


class Refused(OldStoreCase):
    def test_a_missing_folder_is_refused(self):
        self.assert_refused(3, "b.store", "No such file or directory", "pack", self.folder / "none/b.store")

    def test_a_folder_is_refused(self):
        self.assert_refused(1, str(self.folder), "not a plain file", "pack", self.folder)

    def test_a_device_is_refused(self):
        self.assert_refused(1, "/dev/full", "not a plain file", "pack", "/dev/full", input=b"x")

    def test_a_pipe_is_refused_and_not_waited_for(self):
        for name, reason in (("pipe.store", "not a plain file"), ("b.store.part", "b.store.part is not a plain file")):
            with self.subTest(name):
                os.mkfifo(self.folder / name)
                output = name.removesuffix(".part")
                self.assert_refused(1, output, reason, "pack", "--replace", output, input=b"x", timeout=20)

    def test_a_lock_that_is_no_plain_file_is_refused_and_not_waited_for(self):
        self.program.gives("log", "append", "events", input=b"one\n")
        lock = self.folder / "events/lock"
        for make in (os.mkfifo, lambda path: path.symlink_to("elsewhere"), lambda path: path.mkdir()):
            lock.unlink()
            make(lock)
            self.program.fails(1, "events/lock is not a plain file", "log", "append", "events", input=b"x", timeout=20)
        self.assertEqual(sorted(os.listdir(self.folder / "events")), ["lock", "tail.log"])

    def test_the_name_of_a_lock_is_refused(self):
        self.assert_refused(1, "lock", "the name is kept for the lock of a folder", "pack", "lock", input=b"x")

    def test_a_link_to_nothing_is_refused(self):
        (self.folder / "link.store").symlink_to("none.store")
        self.assert_refused(3, "link.store", "No such file or directory", "pack", "link.store", input=b"x")

    def test_a_folder_without_rights_is_refused(self):
        self.folder.chmod(0o555)
        self.addCleanup(self.folder.chmod, 0o755)
        how = {"user": NOBODY, "group": NOBODY, "extra_groups": []} if os.geteuid() == 0 else {}
        self.assert_refused(3, "a.store", "Permission denied", "pack", "--replace", "a.store", input=b"x", **how)


class Kept(OldStoreCase):
    def test_a_link_and_the_mode_and_owner_of_its_file_are_kept(self):
        link = self.folder / "link.store"
        link.symlink_to("a.store")
        self.path.chmod(0o640)
        if os.geteuid() == 0:
            os.chown(self.path, NOBODY, NOBODY)
        before = self.path.stat()
        self.program.gives("pack", "--replace", "link.store", input=b"new\n")
        self.assertEqual(self.text(), b"new\n")
        self.assertTrue(link.is_symlink(), "the link is replaced")
        after = self.path.stat()
        self.assertEqual((after.st_mode, after.st_uid, after.st_gid), (before.st_mode, before.st_uid, before.st_gid))

    def test_a_link_beside_is_not_followed(self):
        other = self.folder / "other"
        other.write_bytes(b"other")
        for target in ("other", "none"):
            with self.subTest(target):
                (self.folder / "a.store.part").symlink_to(target)
                self.program.gives("pack", "--replace", "a.store", input=target.encode())
                self.assertEqual(self.text(), target.encode() + b"\n")
                self.assertEqual(other.read_bytes(), b"other")
                self.assertEqual(self.names(), ["a.store", "other"])


class Names(OldStoreCase):
    def test_names_that_are_no_plain_words_are_taken(self):
        for name in ("two words.store", "ein Wörterbuch 書.store", "a\nb.store", "-x.store", "'\"$(true).store"):
            with self.subTest(name):
                path = self.folder / name
                self.program.gives("pack", path, input=b"x\n")
                self.assertEqual(self.program.gives("get", path, "0"), b"x\n")

    def test_a_name_that_is_no_text_ends_with_an_error(self):
        done = self.program.run("cat", os.fsencode(self.folder) + b"/\xff.store")
        self.assertIn(done.returncode, (1, 2))
        self.assertTrue(done.stderr, "there is no message")
