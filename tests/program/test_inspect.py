"""`inspect`: what it prints, and the text of its pages. The suite `pages` opens them in a browser."""

import html.parser
import re

from harness import ProgramCase, changed
from program.texts import NUMBERS


class Elements(html.parser.HTMLParser):
    """Counts the elements that are open, and keeps what a page refers to and which ends are wrong."""

    VOID = {"meta", "rect", "polygon", "input"}

    def __init__(self):
        super().__init__()
        self.open, self.wrong, self.references = [], [], []

    def handle_starttag(self, tag, attrs):
        if tag not in self.VOID:
            self.open.append(tag)
        self.references += [value for name, value in attrs if name in ("src", "href")]

    def handle_startendtag(self, tag, attrs):
        self.references += [value for name, value in attrs if name in ("src", "href")]

    def handle_endtag(self, tag):
        if not self.open or self.open.pop() != tag:
            self.wrong.append(tag)


class Inspect(ProgramCase):
    def page(self, store, *words):
        """The text of a store's page."""
        self.program.gives("inspect", "--replace", *words, store, "--html", "page.html")
        return self.read("page.html").decode()

    def test_each_element_is_closed_and_nothing_is_loaded(self):
        self.pack("a.store", NUMBERS, "--block-size", "100", "--period", "3")
        text = self.page("a.store")
        elements = Elements()
        elements.feed(text)
        self.assertEqual((elements.open, elements.wrong, elements.references), ([], [], []))
        self.assertEqual(re.findall("<script.*", text), ["<script>"])
        self.assertIn("default-src 'none'", text)
        self.assertIn("@media print", text)
        self.assertIn("prefers-color-scheme: dark", text)

    def test_one_entry_is_taken_in_each_layer(self):
        self.pack("a.store", NUMBERS, "--block-size", "100", "--period", "3")
        text = self.page("a.store")
        self.assertIn("<td>20000</td>", text)
        layers = int(re.search(r"layers</th><td>(\d+)", text)[1])
        self.assertEqual(text.count('class="taken"'), layers)

    def test_a_name_is_written_as_html_writes_it(self):
        (self.folder / "<b>&").mkdir()
        self.pack("<b>&/a.store", NUMBERS)
        self.assertNotIn("<b>", self.page("<b>&/a.store"))

    def test_documents_are_written_as_digits(self):
        self.pack("a.store", b"</pre><script>\n", "--block-size", "0")
        text = self.page("a.store")
        self.assertIn(f'<pre class="hex">{b"</pre><script>".hex()}</pre>', text)
        self.assertEqual(text.count("<script"), 1)

    def test_a_page_shows_at_most_1000_documents(self):
        self.pack("a.store", NUMBERS, "--block-size", "0")
        self.assertEqual(self.page("a.store").count('<pre class="hex">'), 1000)

    def test_an_empty_store_has_a_page(self):
        self.pack("none.store", b"")
        self.assertTrue(self.page("none.store"))

    def test_the_page_is_that_of_the_option(self):
        self.pack("a.store", NUMBERS)
        page = self.page("a.store")
        self.program.gives("inspect", "a.store", "other.html")
        self.assertEqual(self.read("other.html").decode(), page)
        done = self.program.run("inspect", "a.store", "b.html", "--html", "c.html")
        self.assertEqual((done.returncode, done.stdout), (2, b""))
        self.assertIn(b"cannot be used with", done.stderr)

    def test_a_page_is_replaced(self):
        self.pack("one.store", b"a\n")
        self.pack("two.store", NUMBERS)
        one, two = self.page("one.store"), self.page("two.store")
        self.assertNotEqual(one, two)

    def test_a_page_is_not_written_to_the_standard_output(self):
        self.pack("a.store", b"a\n")
        for words in (["a.store", "-"], ["a.store", "--html", "-"]):
            self.program.fails(2, "a page can't be written to standard output: '-'", "inspect", *words)
            self.assertEqual(self.names(), ["a.store"])


class Printed(ProgramCase):
    def blocks(self, documents, *words):
        """The lines on the blocks of a store of these documents, of which each is a block."""
        self.pack("a.store", documents, "--block-size", "0", "--framing", "nul")
        lines = self.program.gives("inspect", *words, "a.store").decode().splitlines()
        self.assertEqual(lines[0], "a.store")
        return [line for line in lines[1:] if not line.startswith("  ")]

    def test_the_numbers_are_those_of_stat(self):
        self.pack("a.store", NUMBERS)
        told = self.program.gives("stat", "a.store")
        self.assertTrue(self.program.gives("inspect", "a.store").startswith(told))

    def test_documents_are_text_or_digits(self):
        self.assertEqual(
            self.blocks(b'plain\0\0a "b"\n\x1b[0m\0\xc3\xa4\0\xff\xfe\0'),
            [
                'block 0: document 0, 5 bytes: "plain"',
                'block 1: document 1, 0 bytes: ""',
                'block 2: document 2, 10 bytes: "a \\"b\\"\\n\\u{1b}[0m"',
                'block 3: document 3, 2 bytes: "ä"',
                "block 4: document 4, 2 bytes: hex fffe",
            ],
        )

    def test_documents_are_cut_before_a_character(self):
        texts = ["x" * 60, "x" * 61, "x" * 59 + "ä", "x" * 57 + "🙂y"]
        self.assertEqual(
            self.blocks("\0".join(texts).encode()),
            [
                f'block 0: document 0, 60 bytes: "{"x" * 60}"',
                f'block 1: document 1, 61 bytes: "{"x" * 60}" ..',
                f'block 2: document 2, 61 bytes: "{"x" * 59}" ..',
                f'block 3: document 3, 62 bytes: "{"x" * 57}" ..',
            ],
        )

    def test_bytes_that_are_no_text_are_cut(self):
        (line,) = self.blocks(b"\x80" * 100)
        self.assertRegex(line, "^block 0: document 0, 100 bytes: hex (80){57,60} ..$")

    def test_at_most_1000_blocks_are_printed(self):
        lines = self.blocks(NUMBERS.replace(b"\n", b"\0"))
        self.assertEqual((len(lines), lines[-1]), (1001, "19000 more blocks"))
        self.assertEqual(lines[999], 'block 999: document 999, 4 bytes: "1000"')

    def test_a_damaged_document_is_named(self):
        store = self.pack("a.store", b"one\ntwo\n")
        self.write("b.store", changed(store, 11, b"\xff"))
        self.program.prints("^block 0: document 0 is damaged$", "inspect", "b.store")

    def test_an_empty_store_has_no_blocks(self):
        self.assertEqual(self.blocks(b""), [])
