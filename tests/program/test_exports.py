"""`export --tantivy`: a file of version 2 with the blocks of the store.

tantivy's own store reader opened the files of the script `exported` of the outside vectors and gave each document.
"""

from harness import ProgramCase, changed, numbers
from program.texts import NUMBERS
from vectors.scripts import script_of

# The stores of the script, in order: their documents, and the words that pack them.
FRUITS = b"apple\nfig\nplum\nkiwi\nlime\ndate\nguava\nlemon\nmango\nmelon\n"
STORES = (
    (b"", ()),
    (b"apple\n", ("--period", "2")),
    (FRUITS, ("--period", "64")),
    (FRUITS, ("--block-size", "16")),
    (numbers(70), ("--block-size", "0", "--period", "3")),
)


class Exports(ProgramCase):
    def export(self, out: str, store: str) -> bytes:
        """The bytes of a store's export."""
        self.program.gives("export", "--tantivy", "--replace", out, store)
        return self.read(out)

    def test_the_files_are_those_that_tantivy_opened(self):
        opened = list(script_of("exported").stores.values())
        self.assertEqual(len(opened), len(STORES))
        for (documents, words), wanted in zip(STORES, opened):
            with self.subTest(words):
                self.pack("a.store", documents, *words)
                self.assert_same(self.export("out.store", "a.store"), wanted, "the export")

    def test_an_export_has_the_documents_in_version_2(self):
        self.pack("a.store", NUMBERS, "--block-size", "100", "--period", "5")
        self.export("out.store", "a.store")
        self.assert_documents("out.store", NUMBERS)
        self.program.prints('"period":8.*"version":2', "stat", "--json", "out.store")

    def test_an_export_of_an_export_is_the_same(self):
        self.pack("a.store", NUMBERS)
        first = self.export("out.store", "a.store")
        self.assert_same(self.export("again.store", "out.store"), first, "the second export")

    def test_version_1_is_refused_and_the_file_is_kept(self):
        store = self.export("out.store", self.pack("a.store", b"a\n") and "a.store")
        self.write("old.store", changed(store, -28, b"\1"))
        self.program.fails(1, "old.store: ", "export", "--tantivy", "--replace", "out.store", "old.store")
        self.assertEqual(self.read("out.store"), store)
        self.assert_missing("out.store.part")

    def test_the_word_tantivy_is_required(self):
        self.pack("a.store", b"a\n")
        self.assertEqual(self.program.run("export", "out.store", "a.store").returncode, 2)
        self.assert_missing("out.store")
