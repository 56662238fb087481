"""`stat` and `verify`: counts, sizes and verdicts."""

import json
import os

from harness import ProgramCase, changed
from program.texts import NUMBERS

NOBODY = 65534


class Stat(ProgramCase):
    def test_counts_are_lines(self):
        self.pack("a.store", NUMBERS)
        self.program.prints("documents +20,000$", "stat", "a.store")

    def test_bytes_are_those_of_the_file_and_of_the_documents(self):
        size = len(self.pack("a.store", NUMBERS, "--block-size", "1000"))
        documents = len(NUMBERS) - 20_000
        for pattern in (
            f"file bytes +{size:,}$", f"document bytes +{documents:,}$", f"other bytes +{size - documents:,}$",
            f"mean document +{documents * 10 // 20_000 / 10}$",
        ):
            self.program.prints(pattern, "stat", "a.store")
        found = json.loads(self.program.gives("stat", "--json", "a.store"))
        self.assertEqual((found["file_bytes"], found["document_bytes"]), (size, documents))

    def test_each_three_digits_of_a_line_have_a_comma_before_them(self):
        for size, shown in ((0, "0"), (999, "999"), (1000, "1,000"), (100_020, "100,020"), (1_000_005, "1,000,005")):
            self.pack("a.store", b"a" * size, "--framing", "files")
            self.program.prints(f"document bytes +{shown}$", "stat", "a.store")
            self.program.prints(f'"document_bytes":{size},', "stat", "--json", "a.store")

    def test_several_stores_are_a_table(self):
        sizes = [len(self.pack(name, text)) for name, text in (("a.store", NUMBERS), ("none.store", b""))]
        heads, first, second = self.program.gives("stat", "a.store", "none.store").decode().splitlines()
        self.assertEqual(heads.split(), ["documents", "blocks", "file", "bytes", "mean", "document", "file"])
        self.assertEqual(first.split()[0::2], ["20000", str(sizes[0]), "a.store"])
        self.assertEqual(second.split(), ["0", "0", str(sizes[1]), "0.0", "none.store"])
        ends = [line.index(name) for line, name in ((first, "a.store"), (second, "none.store"))]
        self.assertEqual(ends, [heads.rindex("file")] * 2)

    def test_json_is_a_line_for_each_store(self):
        self.pack("a.store", NUMBERS)
        self.pack("b.store", NUMBERS, "--block-size", "100")
        lines = self.program.gives("stat", "--json", "a.store", "b.store").splitlines()
        self.assertEqual([json.loads(line)["documents"] for line in lines], [20_000, 20_000])

    def test_an_empty_store_has_no_layer(self):
        self.pack("none.store", b"")
        self.program.prints('"blocks":0,.*"layers":0', "stat", "--json", "none.store")


class Verify(ProgramCase):
    def test_a_sound_store_is_reported(self):
        self.pack("a.store", NUMBERS)
        done = self.program.run("verify", "a.store")
        self.assertEqual(done.returncode, 0)
        self.assertRegex(done.stdout.decode(), r"^a.store: sound: 20000 documents in \d+ blocks\n$")
        self.assertRegex(done.stderr.decode(), r"^note: changes inside a document's bytes are not detected .*\n$")

    def test_quiet_prints_broken_stores_only(self):
        whole = self.pack("a.store", NUMBERS)
        self.write("broken.store", changed(whole, -29, b"\0"))
        self.assertEqual(self.program.gives("verify", "-q", "a.store"), b"")
        done = self.program.run("verify", "-q", "a.store", "broken.store")
        self.assertEqual((done.returncode, done.stderr), (1, b""))
        self.assertRegex(done.stdout.decode(), r"^broken.store: broken: index: .*\n$")


class SeveralStores(ProgramCase):
    """`stat` and `verify` go on after a file that they can't read, and end with the worst status."""

    def setUp(self):
        super().setUp()
        whole = self.pack("a.store", NUMBERS)
        self.write("broken.store", changed(whole, -29, b"\0"))
        self.write("hidden.store", whole)
        os.chmod(self.folder / "hidden.store", 0)

    def run_over(self, command, *names):
        """Runs a command over files; returns its status, its lines, and the lines of its errors."""
        done = self.program.run(command, *names, **self.as_nobody())
        return done.returncode, done.stdout.decode(), done.stderr.decode()

    def as_nobody(self):
        """How a program is run that has no right to read what nobody may; it may run in the folder."""
        os.chmod(self.folder, 0o755)
        return {"user": NOBODY, "group": NOBODY, "extra_groups": []} if os.geteuid() == 0 else {}

    def test_a_missing_file_ends_with_3_after_the_others(self):
        for command, wanted in (("stat", "20000"), ("verify", "a.store: sound: 20000 documents")):
            with self.subTest(command):
                status, lines, errors = self.run_over(command, "gone", "a.store")
                self.assertEqual(status, 3, errors)
                self.assertIn("zevkhadun: gone: No such file or directory (os error 2)\n", errors)
                self.assertIn(wanted, lines)

    def test_a_file_that_may_not_be_read_ends_with_3(self):
        for command in ("stat", "verify"):
            with self.subTest(command):
                status, lines, errors = self.run_over(command, "hidden.store", "a.store")
                self.assertEqual(status, 3, errors)
                self.assertIn("hidden.store: Permission denied", errors)
                self.assertIn("a.store", lines)

    def test_a_broken_store_ends_with_1_after_the_others(self):
        for command in ("stat", "verify"):
            with self.subTest(command):
                status, lines, errors = self.run_over(command, "gone", "broken.store", "a.store")
                self.assertEqual(status, 1, errors)
                self.assertIn("broken.store", lines + errors)
                self.assertIn("gone: No such file", errors)
                self.assertIn("a.store", lines)
