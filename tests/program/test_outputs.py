"""What an output may take the place of, and what stays where a command fails."""

import os
import re
import resource
import stat
import subprocess

from harness import ProgramCase, limited
from program.texts import LINES, NUMBERS

# No file may have more bytes.
SMALL_DISK = limited(resource.RLIMIT_FSIZE, 1024)


class OldFile(ProgramCase):
    """A failed write leaves the store that was there, and no other file."""

    def setUp(self):
        super().setUp()
        self.old = self.pack("kept.store", LINES)

    def test_a_full_disk_leaves_the_old_file(self):
        self.write("numbers.txt", NUMBERS)
        words = ["pack", "--replace", "kept.store", "numbers.txt"]
        self.program.fails(3, "kept.store: ", *words, preexec_fn=SMALL_DISK)
        self.assert_kept("kept.store", self.old)

    def test_a_merge_on_a_full_disk_leaves_the_old_file(self):
        self.pack("numbers.store", NUMBERS)
        words = ["merge", "--replace", "kept.store", "numbers.store"]
        self.program.fails(3, "kept.store: ", *words, preexec_fn=SMALL_DISK)
        self.assert_kept("kept.store", self.old)

    def test_a_refused_input_leaves_the_old_file(self):
        self.write("cut.bin", b"\5\0\0\0ab")
        reason = "cut.bin: the input ends inside a document"
        self.program.fails(1, reason, "pack", "--replace", "--framing", "lengths", "kept.store", "cut.bin")
        self.program.fails(3, "gone: No such file", "pack", "--replace", "kept.store", "gone")
        self.assert_kept("kept.store", self.old)


class Replacing(ProgramCase):
    """A file is replaced only with `--replace`, whatever it holds."""

    # The words of each command that writes a file, but for its output.
    COMMANDS = (
        (["pack"], ["lines.txt"]), (["merge"], ["numbers.store"]), (["export", "--tantivy"], ["numbers.store"]),
        (["inspect", "numbers.store"], []), (["inspect", "numbers.store", "--html"], []),
    )

    def setUp(self):
        super().setUp()
        self.write("lines.txt", LINES)
        self.pack("numbers.store", NUMBERS)

    def olds(self):
        """What an old file may hold."""
        whole = self.read("numbers.store")
        return {
            "a store": whole, "a cut store": whole[:1000], "nothing": b"", "a page": b"<!DOCTYPE html>", "text": LINES,
        }

    def test_a_file_is_refused(self):
        reason = "old: the file exists; choose another name, or give '--replace'"
        for before, after in self.COMMANDS:
            for what, old in self.olds().items():
                with self.subTest(before[0], old=what):
                    self.write("old", old)
                    self.program.fails(1, reason, *before, "old", *after)
                    self.assert_kept("old", old)

    def test_a_file_is_replaced_with_the_option(self):
        for before, after in self.COMMANDS:
            self.program.gives(*before, "new", *after)
            new = self.read("new")
            (self.folder / "new").unlink()
            for what, old in self.olds().items():
                with self.subTest(before[0], old=what):
                    self.write("old", old)
                    self.program.gives(*before, "old", *after, "--replace")
                    self.assert_kept("old", new)

    def test_a_file_that_comes_meanwhile_is_kept(self):
        command = [self.program.path, "pack", "late.store"]
        writing = subprocess.Popen(command, cwd=self.folder, stdin=subprocess.PIPE, stderr=subprocess.PIPE)
        self.wait_for("late.store.part")
        self.write("late.store", b"another's")
        _, said = writing.communicate(b"one\n", timeout=60)
        self.assertEqual(writing.returncode, 1, said)
        self.assertEqual(said, b"zevkhadun: late.store: the file exists; choose another name, or give '--replace'\n")
        self.assert_kept("late.store", b"another's")

    def test_a_link_to_a_file_is_refused(self):
        self.write("old", LINES)
        (self.folder / "link").symlink_to("old")
        self.program.fails(1, "link: the file exists", "pack", "link", "lines.txt")
        self.assert_kept("old", LINES)


class InputAsOutput(ProgramCase):
    """An output that is one of the inputs is refused, by whatever name."""

    def setUp(self):
        super().setUp()
        self.lines = self.write("lines.txt", LINES)
        self.old = self.pack("a.store", LINES)
        self.pack("b.store", LINES)
        (self.folder / "link").symlink_to("a.store")
        os.link(self.folder / "a.store", self.folder / "other-name")

    def test_each_name_of_it_is_refused(self):
        for name in ("a.store", "./a.store", "link", "other-name"):
            for words in (
                ["pack", "--replace", name, "lines.txt", "a.store"], ["append", name, "a.store"],
                ["merge", "--replace", name, "b.store", "a.store"], ["merge", "--replace", "a.store", name],
                ["export", "--tantivy", "--replace", name, "a.store"], ["inspect", "--replace", "a.store", name],
            ):
                with self.subTest(words):
                    self.program.fails(1, "this input is the output too", *words, timeout=20)
                    self.assert_kept("a.store", self.old)

    def test_it_is_refused_as_the_standard_input(self):
        for words in (["pack", "--replace", "a.store"], ["append", "a.store"], ["append", "a.store", "lines.txt", "-"]):
            with self.subTest(words), open(self.folder / "a.store", "rb") as file:
                self.program.fails(1, "this input is the output too", *words, stdin=file, timeout=20)
                self.assert_kept("a.store", self.old)

    def test_it_is_refused_in_a_list(self):
        self.write("list", b"lines.txt\na.store\n")
        self.program.fails(
            1, "a.store: this input is the output too", "append", "a.store", "--files-from", "list", timeout=20
        )

    def test_the_file_beside_is_no_input(self):
        self.write("c.store.part", LINES)
        self.program.fails(1, "this input is the output too", "pack", "c.store", "c.store.part", timeout=20)
        self.assertEqual(self.read("c.store.part"), LINES)


class Private(ProgramCase):
    """The file beside one that is replaced is private from its beginning."""

    def modes(self, *words):
        """The modes of the file beside, as it is made, and of the file that has the name."""
        self.require("strace")
        calls = self.folder / "calls"
        command = ["strace", "-f", "-o", calls, "-e", "trace=openat", self.program.path, *words]
        subprocess.run(command, cwd=self.folder, input=LINES, check=True, timeout=120)
        made = re.search(r'"a\.store\.part", [A-Z_|]*O_CREAT[A-Z_|]*, (0[0-7]+)', calls.read_text(encoding="utf-8"))
        return made[1], stat.S_IMODE(os.stat(self.folder / "a.store").st_mode)

    def test_the_mode_of_the_old_file_comes_after_it(self):
        for mode in (0o600, 0o640):
            self.pack("a.store", LINES)
            (self.folder / "a.store").chmod(mode)
            for words in (["pack", "--replace", "a.store"], ["append", "a.store"]):
                with self.subTest(words, mode=mode):
                    self.assertEqual(self.modes(*words), ("0600", mode))

    def test_a_new_file_has_the_usual_mode(self):
        mask = os.umask(0o022)
        self.addCleanup(os.umask, mask)
        self.assertEqual(self.modes("pack", "a.store"), ("0666", 0o644))


class Expected(ProgramCase):
    """With `--expect` nothing is written unless that many documents come."""

    def setUp(self):
        super().setUp()
        self.old = self.pack("a.store", LINES)

    def test_another_number_leaves_the_old_file(self):
        for words in (["pack", "--replace", "a.store"], ["append", "a.store"]):
            for count in ("0", "2", "4"):
                with self.subTest(words, count=count):
                    reason = f"a.store: {count} documents were expected and 3 came; nothing was written"
                    self.program.fails(1, reason, *words, "--expect", count, input=LINES)
                    self.assert_kept("a.store", self.old)

    def test_the_documents_of_all_inputs_are_counted(self):
        self.write("lines.txt", LINES)
        self.program.gives("pack", "b.store", "lines.txt", "-", "--expect", "4", input=b"four\n")
        self.program.gives("append", "b.store", "lines.txt", "--expect", "3")
        self.program.prints('"documents":7', "stat", "--json", "b.store")

    def test_a_new_file_does_not_appear(self):
        self.program.fails(1, "5 documents were expected", "pack", "b.store", "--expect", "5", input=LINES)
        self.assertEqual(self.names(), ["a.store"])


class Standard(ProgramCase):
    """The standard output, and names that are like its own."""

    def setUp(self):
        super().setUp()
        self.write("lines.txt", LINES)
        self.pack("numbers.store", NUMBERS)

    def test_a_store_is_not_written_to_the_standard_output(self):
        reason = "a store can't be written to standard output: '-'"
        self.program.fails(2, reason, "pack", "-")
        self.program.fails(2, reason, "merge", "-", "numbers.store")

    def test_a_file_may_have_a_dash_as_its_name(self):
        whole = self.pack("a.store", LINES)
        self.assertEqual(self.pack("./-", LINES), whole)

    def test_a_missing_folder_and_a_folder_are_refused(self):
        self.program.fails(3, "gone/x.store: No such file", "pack", "gone/x.store", "lines.txt")
        self.program.fails(1, "not a plain file", "pack", self.folder, "lines.txt")
