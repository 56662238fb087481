"""Standard descriptors that are closed: no file of the program gets their numbers, so nothing is printed into it."""

import itertools
import os
import shutil

from harness import ProgramCase
from program.texts import LINES

# Each choice of standard descriptors that are closed: the input, the output and the errors.
CLOSED = [closed for count in (1, 2, 3) for closed in itertools.combinations((0, 1, 2), count)]
# A torn end of a tail, of which a command that writes the log warns.
TORN = b"\1torn"


def closing(*closed):
    """What a child does before its program starts, so that these descriptors are closed."""

    def close():
        for descriptor in closed:
            os.close(descriptor)

    return close


class Descriptors(ProgramCase):
    def setUp(self):
        super().setUp()
        self.write("lines.txt", LINES)
        self.begin()

    def begin(self):
        """Writes the store and the log that the commands read."""
        for name in ("out.store", "out.html"):
            (self.folder / name).unlink(missing_ok=True)
        shutil.rmtree(self.folder / "events", ignore_errors=True)
        self.pack("a.store", LINES)
        self.program.gives("log", "append", "events", "lines.txt")

    def run_closed(self, closed, *words):
        """Runs a command without some of its standard descriptors, and returns its status."""
        return self.program.run(*words, preexec_fn=closing(*closed)).returncode

    def check_sound(self, words):
        """The store and the log have what they had, and what the command added."""
        self.assert_documents("a.store", LINES * 2 if words[0] == "append" else LINES)
        self.assertEqual(self.program.run("log", "verify", "-q", "events").returncode, 0)
        records = self.program.gives("log", "cat", "events")
        self.assertEqual(records, LINES * 2 if words[:2] == ["log", "append"] else LINES)

    def test_each_command_leaves_its_files_sound(self):
        for words in (
            ["pack", "out.store", "lines.txt"], ["append", "a.store", "lines.txt"], ["get", "a.store", "0"],
            ["cat", "a.store"], ["stat", "a.store"], ["verify", "a.store"], ["merge", "out.store", "a.store"],
            ["export", "--tantivy", "out.store", "a.store"], ["inspect", "a.store"],
            ["inspect", "a.store", "out.html"], ["log", "append", "events", "lines.txt", "--number"],
            ["log", "get", "events", "0"], ["log", "cat", "events"], ["log", "stat", "events"],
            ["log", "verify", "events"], ["log", "repair", "events"], ["log", "seal", "events"],
            ["log", "compact", "events"], ["log", "drop", "events", "--before", "0"],
        ):
            for closed in CLOSED:
                with self.subTest(words, closed=closed):
                    self.begin()
                    status = self.run_closed(closed, *words)
                    # What is printed, or that it is printed, may fail; what is written may not.
                    self.assertIn(status, (0, 3))
                    if words[0] in ("pack", "append", "merge", "export"):
                        self.assertEqual(status, 0)
                    self.check_sound(words)

    def test_a_warning_does_not_go_into_the_tail(self):
        for closed in CLOSED:
            with self.subTest(closed=closed):
                self.begin()
                tail = self.folder / "events/tail.log"
                tail.write_bytes(tail.read_bytes() + TORN)
                # As after a writer that was killed: no mark says that it ended well.
                (self.folder / "events/lock").unlink()
                self.assertEqual(self.run_closed(closed, "log", "append", "events", "lines.txt"), 0)
                self.assertEqual(self.program.gives("log", "cat", "events"), LINES * 2)

    def test_a_use_of_a_closed_descriptor_is_an_error(self):
        self.assertEqual(self.run_closed((0,), "pack", "out.store"), 3)
        self.assert_missing("out.store")
        self.assertEqual(self.run_closed((1,), "cat", "a.store"), 3)
        self.assertEqual(self.run_closed((2,), "cat", "gone.store"), 3)
