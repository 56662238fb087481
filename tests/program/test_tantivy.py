"""A file `.store` of a segment of tantivy, which ends with the footer of tantivy's directory."""

from harness import ProgramCase
from program.texts import NUMBERS

FOOTER = b'{"version":{}}\x0e\0\0\0\x39\5\0\0'


class Segment(ProgramCase):
    def setUp(self):
        super().setUp()
        self.write("segment.store", self.pack("numbers.store", NUMBERS) + FOOTER)

    def test_it_is_read_by_each_command(self):
        for option in ([], ["--tantivy"]):
            self.program.prints('"documents":20000', "stat", "--json", *option, "segment.store")
            self.assertEqual(self.program.run("verify", *option, "segment.store").returncode, 0)
            self.assert_documents("segment.store", NUMBERS, *option)
            self.assertEqual(self.program.gives("get", *option, "segment.store", "41"), b"42\n")

    def test_it_has_a_page(self):
        for option in ([], ["--tantivy"]):
            self.program.gives("inspect", "--replace", *option, "segment.store", "--html", "page.html")
            self.assertIn(b"<td>20000</td>", self.read("page.html"))

    def test_it_is_merged(self):
        self.program.gives("merge", "--tantivy", "merged.store", "segment.store")
        self.assert_documents("merged.store", NUMBERS)
        self.program.gives("merge", "--replace", "merged.store", "segment.store", "numbers.store")
        self.assert_documents("merged.store", NUMBERS * 2)

    def test_its_store_is_found_by_every_length_of_the_text(self):
        store = self.read("numbers.store")
        for text in (b"", b"x", b"{}" * 40_000):
            self.write("segment.store", store + text + len(text).to_bytes(4, "little") + b"\x39\5\0\0")
            self.assert_documents("segment.store", NUMBERS)

    def test_nothing_is_appended_to_it(self):
        before = self.read("segment.store")
        self.program.fails(1, "segment.store: unknown store version", "append", "segment.store", input=b"more\n")
        self.assert_kept("segment.store", before)

    def test_a_length_past_the_file_is_no_footer(self):
        self.write("segment.store", b"x" * 40 + b"\xff\0\0\0\x39\5\0\0")
        self.program.fails(1, "segment.store: unknown store version", "cat", "segment.store")
        self.program.fails(1, "no footer of tantivy's directory", "cat", "--tantivy", "segment.store")

    def test_a_store_without_that_footer_is_refused(self):
        self.program.fails(1, "no footer of tantivy's directory", "cat", "--tantivy", "numbers.store")
