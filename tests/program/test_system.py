"""What the program does with full outputs, closed pipes, terminals and other writers."""

import os
import re
import subprocess

from harness import ProgramCase, numbers, read_to_end
from program.texts import LINES, NUMBERS

READERS = (
    ["cat", "numbers.store"],
    ["get", "numbers.store", "0.."],
    ["stat", "numbers.store", "numbers.store"],
    ["verify", "numbers.store"],
    ["cat", "--json", "numbers.store"],
    ["cat", "--number", "numbers.store"],
    ["stat", "--json", "numbers.store"],
    ["verify", "--json", "numbers.store"],
)


class Outputs(ProgramCase):
    def setUp(self):
        super().setUp()
        self.pack("numbers.store", NUMBERS)

    def test_a_full_output_is_reported(self):
        for words in READERS:
            with self.subTest(words[0]), open("/dev/full", "wb") as full:
                self.program.fails(3, "standard output: No space", *words, stdout=full)

    def test_a_full_output_is_reported_by_the_help_and_the_version(self):
        for words in (["--help"], ["pack", "--help"], ["--version"]):
            with self.subTest(words), open("/dev/full", "wb") as full:
                self.program.fails(3, "standard output: No space", *words, stdout=full)

    def test_a_closed_pipe_is_silent_and_ends_with_0(self):
        for words in READERS:
            with self.subTest(words[0]):
                closed, output = os.pipe()
                os.close(closed)
                with open(output, "wb") as pipe:
                    self.program.gives(*words, stdout=pipe)

    def test_a_pipe_that_is_closed_after_a_line_is_silent(self):
        command = [self.program.path, "cat", "numbers.store"]
        how = {"stdout": subprocess.PIPE, "stderr": subprocess.PIPE}
        with subprocess.Popen(command, cwd=self.folder, **how) as printing:
            self.assertEqual(printing.stdout.readline(), b"1\n")
            printing.stdout.close()
            self.assertEqual(printing.stderr.read(), b"")


class OtherWriter(ProgramCase):
    """A writer that waits for its input, at the name that another wants to write."""

    def setUp(self):
        super().setUp()
        self.old = self.pack("kept.store", LINES)
        os.mkfifo(self.folder / "slow")
        command = [self.program.path, "pack", "--replace", "kept.store", "slow"]
        self.writer = subprocess.Popen(command, cwd=self.folder)
        self.addCleanup(self.end)
        # For reading too, so that it opens even if no program does.
        self.input = os.open(self.folder / "slow", os.O_RDWR)
        self.addCleanup(os.close, self.input)
        os.write(self.input, b"begun\n")
        self.wait_for("kept.store.part")

    def end(self):
        self.writer.kill()
        self.writer.wait()

    def test_an_output_that_another_writes_is_refused(self):
        reason = "kept.store.part is being written by another"
        self.program.fails(3, reason, "pack", "--replace", "kept.store", input=LINES)
        self.assert_same(self.read("kept.store"), self.old, "kept.store")

    def test_a_writer_that_is_killed_leaves_the_old_file(self):
        self.end()
        self.assert_same(self.read("kept.store"), self.old, "kept.store")

    def test_what_a_killed_writer_left_is_taken_over(self):
        self.end()
        self.assertIn("kept.store.part", self.names())
        whole = self.pack("numbers.store", NUMBERS)
        self.assert_same(self.pack("kept.store", NUMBERS), whole, "kept.store")
        self.assert_missing("kept.store.part")


class Terminal(ProgramCase):
    """Progress and summaries are shown on a terminal alone."""

    MORE = numbers(200_000)

    def setUp(self):
        super().setUp()
        self.write("numbers.txt", NUMBERS)
        self.write("more.txt", self.MORE)

    def test_a_summary_is_shown(self):
        summary = r"20000 documents, [0-9]+ bytes, [0-9]+ blocks, [0-9.]+ seconds"
        self.assertRegex(self.program.shows("pack", "a.store", "numbers.txt"), summary)
        self.pack("b.store", LINES * 2)
        self.assertRegex(self.program.shows("merge", "all.store", "a.store", "b.store"), "20006 documents")

    def test_nothing_is_shown_with_quiet(self):
        self.assertEqual(self.program.shows("pack", "--quiet", "a.store", "numbers.txt"), "")

    def test_progress_is_shown(self):
        text = self.program.shows("pack", "a.store", "more.txt")
        size = len(numbers(131_072)) / 1000
        self.assertRegex(text, rf"{int(size * 100_000 / len(self.MORE))}% 0:00 left {int(size)} KB [0-9.]+ [KM]B/s")
        text = self.program.shows("append", "a.store", "more.txt")
        self.assertRegex(text, r"[0-9]+% 0:00 left [0-9.]+ KB [0-9.]+ [KMG]B/s")
        text = self.program.shows("merge", "--replace", "all.store", "a.store", "a.store")
        self.assertRegex(text, r"400000 documents [0-9.]+ MB [0-9.]+ [KMG]B/s")

    def test_progress_fits_into_forty_columns(self):
        self.program.shows("pack", "a.store", "more.txt")
        for words in (["pack", "b.store", "more.txt"], ["append", "a.store", "more.txt"], ["verify", "a.store"],
                      ["merge", "all.store", "a.store", "a.store"]):
            with self.subTest(words[0]):
                shown = re.findall(r"\r([^\r\n]+)\x1b\[K", self.program.shows(*words))
                self.assertTrue([line for line in shown if line], "no progress is shown")
                self.assertLess(max(map(len, shown)), 40)

    def test_what_is_read_from_a_terminal_is_announced(self):
        terminal, shown = os.openpty()
        how = {"stdin": shown, "stdout": shown, "stderr": shown}
        command = [self.program.path, "pack", "a.store"]
        with open(terminal, "rb", buffering=0), subprocess.Popen(command, cwd=self.folder, **how) as running:
            os.close(shown)
            text = os.read(terminal, 1000).decode()
            os.write(terminal, b"one\ntwo\n\4")
            text += read_to_end(terminal).decode()
        self.assertEqual(running.returncode, 0, text)
        self.assertIn("reading documents from the terminal; end with Ctrl-D", text)
        self.assert_documents("a.store", b"one\ntwo\n")

    def test_nothing_is_shown_where_there_is_no_terminal(self):
        self.program.gives("pack", "a.store", "more.txt")
