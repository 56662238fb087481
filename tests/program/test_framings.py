"""How documents are delimited: what is packed in a framing comes back byte for byte."""

import random

from harness import ProgramCase
from program.texts import LINES

OPEN = b"one\n\nthree"
RANDOM = random.Random(7).randbytes(300_000)
COMES_BACK = {
    "lines": ("lines", LINES),
    "text": ("text", LINES),
    "a last line without its end, as text": ("text", OPEN),
    "any bytes, as text": ("text", RANDOM),
    "documents up to a byte 0": ("nul", b"one\0\0th\nree\0"),
    "documents with their lengths": ("lengths", b"\3\0\0\0one\0\0\0\0\2\0\0\0\n\0"),
    "a file": ("files", b"a\0b\n\nc"),
    "an empty file as lines": ("lines", b""),
    "an empty file as text": ("text", b""),
    "an empty file as lengths": ("lengths", b""),
    "an empty file as a file": ("files", b""),
}


class Framings(ProgramCase):
    def test_what_is_packed_in_a_framing_comes_back(self):
        for what, (framing, content) in COMES_BACK.items():
            with self.subTest(what):
                self.write("input", content)
                self.program.gives("pack", "--replace", "--framing", framing, "a.store", "input")
                self.assert_documents("a.store", content, "--framing", framing)

    def test_a_last_line_without_its_end_gets_one_as_lines(self):
        self.write("open.txt", OPEN)
        self.program.gives("pack", "a.store", "open.txt")
        self.assert_documents("a.store", LINES)

    def test_a_last_document_without_its_byte_0_gets_one(self):
        self.pack("a.store", b"a\0b", "--framing", "nul")
        self.assert_documents("a.store", b"a\0b\0", "--framing", "nul")

    def test_each_line_is_a_document(self):
        self.pack("a.store", OPEN)
        self.program.prints('"documents":3', "stat", "--json", "a.store")

    def test_a_document_is_got_with_its_length(self):
        self.pack("a.store", LINES)
        self.assertEqual(self.program.gives("get", "--framing", "lengths", "a.store", "0"), b"\3\0\0\0one")


class Files(ProgramCase):
    """A store of three files."""

    def setUp(self):
        super().setUp()
        contents = {"lines.txt": LINES, "empty.txt": b"", "random.bin": RANDOM}
        for name, content in contents.items():
            self.write(name, content)
        self.program.gives("pack", "--framing", "files", "a.store", *contents)

    def test_files_come_one_after_the_other(self):
        self.assert_documents("a.store", LINES + RANDOM, "--framing", "files")

    def test_each_file_is_a_document(self):
        self.program.prints('"documents":3', "stat", "--json", "a.store")

    def test_a_file_is_got(self):
        given = self.program.gives("get", "--framing", "files", "a.store", "2")
        self.assert_same(given, RANDOM, "document 2")


class Inputs(ProgramCase):
    def setUp(self):
        super().setUp()
        self.write("lines.txt", LINES)

    def test_no_input_and_a_dash_are_the_standard_input(self):
        without = self.pack("a.store", LINES, "--framing", "lines")
        self.assertEqual(self.pack("b.store", LINES, "-"), without)
        self.assert_documents("a.store", LINES)

    def test_inputs_come_in_order(self):
        self.pack("a.store", OPEN, "lines.txt", "-")
        self.assert_documents("a.store", LINES * 2)
        self.pack("b.store", b"first\n", "-", "lines.txt")
        self.assert_documents("b.store", b"first\n" + LINES)
