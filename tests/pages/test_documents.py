"""A page shows the first document of each block, and any other one once the store's file is chosen or dropped on it."""

from __future__ import annotations

import random
import struct
from pathlib import Path

from harness import changed, numbers
from pages.case import PageCase

MEBIBYTE = 1 << 20
NUMBERS = numbers(20_000)
SAID, SHOWN = "document.getElementById('said').textContent", "document.getElementById('shown').textContent"
ROWS = """[...document.querySelectorAll('.documents tr')].slice(1).map(
    row => [...row.children].map(part => part.textContent))"""


def number(value: int) -> bytes:
    """A number in groups of seven bits, the lowest first; the last byte has 128 added."""
    groups = []
    while value >= 128:
        groups.append(value % 128)
        value //= 128
    return bytes([*groups, value + 128])


def block(*documents: bytes) -> bytes:
    """The bytes of a block of these documents."""
    places = [sum(map(len, documents[:place])) for place in range(len(documents))]
    return b"".join(documents) + struct.pack(f"<{len(places) + 1}I", *places, len(places))


def sparse_store(path: Path, sizes: list[int], last: bytes) -> None:
    """Writes a store of one layer: a block of zeros of each size, whose document is damaged, and then a block."""
    lengths = [*sizes, len(last)]
    run = number(len(lengths)) + number(0) * 2 + b"".join(number(1) + number(length) for length in lengths)
    index = number(1) + number(len(run)) + run
    footer = struct.pack("<IQB", 3, sum(lengths), 0) + bytes([8]) + bytes(14)
    with open(path, "wb") as file:
        file.seek(sum(sizes))
        file.write(last + index + footer)


class Documents(PageCase):
    def open(self, store: str) -> bytes:
        """Shows the page of a store, and returns its text."""
        page = self.folder / "page.html"
        self.program.gives("inspect", store, "--html", page, "--replace")
        self.browser.open(page)
        return page.read_bytes()

    def asked(self, document: int | str) -> str:
        """Asks for a document, and returns what the page says and shows."""
        self.browser.evaluate(f"""(() => {{
            document.getElementById('said').textContent = '';
            const field = document.getElementById('number');
            field.value = '{document}';
            field.dispatchEvent(new Event('change'));
        }})()""")
        said = self.browser.wait_for(SAID, r"\.$|:$")
        return said + self.browser.wait_for(SHOWN, "." if said.endswith(":") and " 0 bytes" not in said else "")

    def assert_no_faults(self) -> None:
        """The page had no error and loaded nothing else."""
        self.assertEqual(self.browser.faults(), [])

    def test_the_first_document_of_each_block_is_shown(self):
        self.pack("a.store", b"apple\n" + "b\u00e4r <b>&amp;\n".encode() + b"\xff\x00\n\n", "--block-size", "0")
        self.open("a.store")
        rows = [["0", "5", "apple"], ["1", "13", "b\u00e4r <b>&amp;"], ["2", "2", "ff 00"], ["3", "0", ""]]
        self.assertEqual(self.browser.evaluate(ROWS), rows)
        self.assert_no_faults()

    def test_a_damaged_first_document_is_said_to_be(self):
        self.write("damaged.store", changed(self.pack("a.store", b"a\n"), 1, b"\xff" * 4))
        self.open("damaged.store")
        self.assertEqual(self.browser.evaluate(ROWS), [["0", "", "damaged"]])

    def test_a_document_is_cut_at_4096_bytes(self):
        long = "\u20ac".encode() * 3000
        self.pack("a.store", long + b"\nb\n")
        self.open("a.store")
        self.assertEqual(self.browser.evaluate(ROWS), [["0", "9000", "\u20ac" * 1365]])
        self.browser.drop(self.folder / "a.store")
        self.browser.wait_for(SAID, "2 documents")
        said = "Document 0 has 9000 bytes; the first 4096 are:"
        self.assertEqual(self.asked(0), said + "\u20ac" * 1365)

    def test_the_page_of_many_long_documents_is_small(self):
        words = random.Random(7)
        self.pack("a.store", b"".join(words.randbytes(5000).replace(b"\n", b"&") + b"\n" for _ in range(1500)),
                  "--block-size", "0")
        self.assertLess(len(self.open("a.store")), MEBIBYTE)
        rows = self.browser.evaluate(ROWS)
        self.assertEqual([int(row[0]) for row in rows], list(range(1000)))
        self.assert_no_faults()

    def test_any_document_of_a_dropped_file_is_shown(self):
        for shape in ((), ("--block-size", "100", "--period", "2"), ("--block-size", "16", "--period", "64")):
            with self.subTest(shape):
                self.pack("a.store", NUMBERS, *shape)
                self.open("a.store")
                self.browser.drop(self.folder / "a.store")
                self.assertEqual(self.browser.wait_for(SAID, "documents"), "a.store has 20000 documents.")
                for document in (0, 1, 7, 4095, 12_345, 19_999):
                    text = str(document + 1)
                    self.assertEqual(self.asked(document), f"Document {document} has {len(text)} bytes:{text}")
                self.assertIn("The store has 20000 documents", self.asked(20_000))
                self.assertIn("The store has 20000 documents", self.asked(""))
                self.assert_no_faults()

    def test_a_file_is_chosen_too_and_may_have_the_end_of_tantivy(self):
        store = self.pack("a.store", NUMBERS)
        self.write("segment.store", store + b'{"version":{}}\x0e\0\0\0\x39\5\0\0')
        self.open("a.store")
        self.browser.choose("#file", self.folder / "segment.store")
        self.browser.wait_for(SAID, "20000 documents. It is not the file that this page shows")
        self.assertEqual(self.asked(41), "Document 41 has 2 bytes:42")

    def test_a_file_that_is_no_store_is_named_so(self):
        self.pack("a.store", b"a\n")
        self.open("a.store")
        for content, reason in ((b"short", "shorter than a footer"), (b"x" * 100, "unknown store version")):
            self.write("other", content)
            self.browser.drop(self.folder / "other")
            self.browser.wait_for(SAID, reason)
            self.assertIn("Choose the file", self.asked(0))

    def test_a_file_of_five_gigabytes_is_read_in_parts(self):
        self.pack("a.store", b"a\n")
        self.open("a.store")
        sparse_store(self.folder / "large.store", [2_500_000_000] * 2, block(b"the last"))
        self.browser.drop(self.folder / "large.store")
        self.browser.wait_for(SAID, "large.store has 3 documents")
        self.assertEqual(self.asked(2), "Document 2 has 8 bytes:the last")
        self.assertIn("Document 1 is damaged", self.asked(1))
        self.assert_no_faults()
