"""Damaged files, to each command that reads."""

import os
from dataclasses import dataclass
from typing import Callable

from harness import ProgramCase, changed, numbers
from program.texts import LINES, NUMBERS


@dataclass(frozen=True)
class Damage:
    """A change to the bytes of a store, what commands that read say of it, and what `verify` says."""

    change: Callable[[bytes], bytes]
    reason: str
    verdict: str


# The footer has 28 bytes: the version is at -28, the offset at -24, the kind of the blocks at -16, the period at -15.
DAMAGES = {
    "a short file": Damage(
        lambda store: store[:10], "file of 10 bytes is shorter than a footer", "footer: file of 10 bytes"
    ),
    "another version": Damage(
        lambda store: changed(store, -28, b"\x09"), "unknown store version 9", "footer: unknown store version 9"
    ),
    "compressed blocks": Damage(
        lambda store: changed(store, -16, b"\1"),
        "blocks are compressed (kind 1, LZ4); only uncompressed stores can be read",
        "footer: ",
    ),
    "blocks that Zstd compressed": Damage(
        lambda store: changed(store, -16, b"\4"), "blocks are compressed (kind 4, Zstd); only", "footer: "
    ),
    "blocks of an unknown kind": Damage(
        lambda store: changed(store, -16, b"\5"), "blocks are compressed (kind 5); only", "footer: "
    ),
    "another period": Damage(lambda store: changed(store, -15, b"\1"), "bad checkpoint period 1", "footer: "),
    "an offset past the file": Damage(
        lambda store: changed(store, -20, b"\xff"), "index offset is past the body", "footer: "
    ),
    "a broken index": Damage(
        lambda store: changed(store, -29, b"\0"), "the index is damaged; 'zevkhadun verify'", "index: layer 0 at byte"
    ),
}
# Bytes at which an index is changed, and the layer that is then broken. Twenty blocks of 191 bytes together, and three
# layers, which begin at bytes 195, 204 and 227.
LAYERS = {
    191: "the list of layers at byte 191",
    195: "layer 2 at byte 195",
    204: "layer 1 at byte 204",
    213: "layer 1 at byte 213",
    227: "layer 0 at byte 227",
    282: "layer 0 at byte 282",
}


class DamagedCase(ProgramCase):
    def assert_broken(self, name, verdict):
        """`verify` prints the fault on a line, and ends with 1."""
        done = self.program.run("verify", "-q", name)
        said = (done.stdout + done.stderr).decode()
        self.assertEqual((done.returncode, done.stderr), (1, b""), said)
        self.assertIn(f"{name}: broken: {verdict}", said)

    def assert_unreadable(self, name, reason):
        """Each command that reads fails with a line that has the reason in it."""
        for words in (
            ["get", name, "0"],
            ["cat", name],
            ["stat", name],
            ["merge", "x.store", name],
            ["inspect", name, "--html", "x.html"],
        ):
            with self.subTest(command=words[0]):
                self.program.fails(1, f"{name}: {reason}", *words)
        self.assert_missing("x.store")
        self.assert_missing("x.html")


class Unreadable(DamagedCase):
    def test_each_damage_is_reported_by_each_command(self):
        whole = self.pack("whole.store", NUMBERS)
        for what, damage in DAMAGES.items():
            with self.subTest(what):
                self.write("bad.store", damage.change(whole))
                self.assert_unreadable("bad.store", damage.reason)
                self.assert_broken("bad.store", damage.verdict)

    def test_an_index_that_does_not_cover_the_data_is_reported(self):
        """The block ends before the data does: there are four more bytes before the index, and it is sound."""
        self.write("abc", b"abc")
        self.program.gives("pack", "--framing", "files", "whole.store", "abc")
        whole = self.read("whole.store")
        self.write("bad.store", changed(whole[:11] + b"more" + whole[11:], -24, b"\x0f"))
        self.assert_unreadable("bad.store", "the index is damaged")
        self.assert_broken("bad.store", "coverage: the blocks end at byte 11, the data ends at byte 15")

    def test_verify_reports_where_an_index_is_broken(self):
        whole = self.pack("whole.store", numbers(20), "--block-size", "0", "--period", "3")
        for place, where in LAYERS.items():
            with self.subTest(place=place):
                self.write("bad.store", changed(whole, place, b"\xf8"))
                self.assert_broken("bad.store", f"index: {where}\n")

    def test_a_missing_file_and_a_folder_are_reported(self):
        for words in (["cat", "gone"], ["get", "gone", "0"], ["merge", "x.store", "gone"]):
            self.program.fails(3, "gone: No such file", *words)
        self.program.fails(1, f"{self.folder}: not a plain file", "cat", self.folder)

    def test_a_pipe_is_refused_and_not_waited_for(self):
        self.pack("a.store", NUMBERS)
        os.mkfifo(self.folder / "pipe")
        for words in (["get", "pipe", "0"], ["cat", "pipe"], ["stat", "pipe"], ["verify", "pipe"], ["inspect", "pipe"],
                      ["merge", "x.store", "pipe"], ["export", "--tantivy", "x.store", "pipe"], ["append", "pipe"]):
            with self.subTest(words):
                self.program.fails(1, "pipe: not a plain file", *words, timeout=20)
        self.assertEqual(self.names(), ["a.store", "pipe"])

    def test_the_note_of_verify_follows_stores_that_were_read(self):
        self.pack("a.store", NUMBERS)
        for names, notes in ((["gone"], 0), (["a.store"], 1), (["gone", "a.store"], 1)):
            with self.subTest(names):
                said = self.program.run("verify", *names).stderr
                self.assertEqual(said.count(b"note: changes"), notes)


class DamagedDocuments(DamagedCase):
    def setUp(self):
        super().setUp()
        self.write("abc", b"abc")
        self.program.gives("pack", "--framing", "files", "whole.store", "abc")
        self.whole = self.read("whole.store")

    def test_a_damaged_document_is_reported(self):
        self.write("bad.store", changed(self.whole, 3, b"\x09"))
        where = "block 0 at byte 0: its first document begins at byte 9, not at 0"
        self.assert_broken("bad.store", f"{where}; damaged: 1 of 1 documents, 1 of 1 blocks")
        self.program.fails(1, "bad.store: document 0 is damaged", "get", "bad.store", "0")
        self.program.fails(1, "bad.store: document 0 is damaged", "cat", "bad.store")

    def test_a_store_with_a_damaged_document_is_counted_and_drawn(self):
        self.write("bad.store", changed(self.whole, 3, b"\x09"))
        self.program.prints('"documents":1', "stat", "--json", "bad.store")
        self.program.gives("inspect", "bad.store", "--html", "page.html")
        self.assertIn(b"damaged documents</th><td>1", self.read("page.html"))

    def test_a_table_with_another_count_is_reported(self):
        self.write("bad.store", changed(self.whole, 7, b"\2"))
        self.assert_broken("bad.store", "block 0 at byte 0: its table has 2 documents, the index says 1")

    def test_a_damaged_slot_is_reported(self):
        whole = self.pack("pair.store", LINES)
        self.write("bad.store", changed(whole, 12, b"\xff"))
        where = "block 0 at byte 0: document 0 is damaged"
        self.assert_broken("bad.store", f"{where}; damaged: 2 of 3 documents, 1 of 1 blocks")


class Versions(ProgramCase):
    def setUp(self):
        super().setUp()
        whole = self.pack("numbers.store", NUMBERS)
        self.write("first.store", changed(whole, -28, b"\1"))
        self.write("second.store", changed(whole, -28, b"\2"))

    def test_version_1_is_read(self):
        self.assert_documents("first.store", NUMBERS)

    def test_version_2_is_merged(self):
        self.program.gives("merge", "x.store", "second.store")
        self.assert_documents("x.store", NUMBERS)

    def test_version_1_is_not_merged(self):
        reason = "first.store: a version 1 store can't be stacked"
        self.program.fails(1, reason, "merge", "x.store", "numbers.store", "first.store")
        self.assert_missing("x.store")
