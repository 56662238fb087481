"""Index parts, as storetool writes and accepts them: tantivy's own tests', lists of many lengths, and no others."""

from __future__ import annotations

import itertools
import struct

from documents.test_reference import file_of, reference
from harness import changed
from lists.case import ToolCase

# Blocks, by how many documents and bytes each has.
Blocks = list[tuple[int, int]]
# A period, blocks, and the bytes of their index part, as tantivy's tests and the format's description have them.
PARTS: list[tuple[int, Blocks, str]] = [
    (8, [], "80"),
    (8, [(2, 3)], "81858180808283"),
    (8, [(3, 9), (1, 16), (2, 24), (2, 32), (2, 19)], "818d" "858080838981908298" "82a08293"),
    (8, [(1, 1)] * 7, "8191" "878080" + "8181" * 7),
    (8, [(1, 1)] * 8, "828598" "8180808893" "888080" + "8181" * 8),
    (2, [(1, 9)] * 3, "828793" "8280808287818582808081898189" "8182928189"),
]
# How many layers the index part of that many blocks has.
LAYERS = {0: 0, 1: 1, 7: 1, 8: 2, 9: 2, 57: 2, 63: 2, 64: 3, 65: 3, 72: 3, 511: 3, 512: 4, 1000: 4}
# tantivy's test of a long index: 1000 blocks of one document, whose bytes end at the squares from 1 to 1000000. The
# layers of its index part are 9, 40, 327 and 3652 bytes long.
SQUARES = [(1, 2 * number + 1) for number in range(1000)]
SQUARES_BEGIN = bytes.fromhex("8489b178823c9f")

# Lengths up to which lists of blocks are tried, each at these periods.
LENGTHS = range(101)
PERIODS = (2, 8)

# What is no index part, and why. The document is `abc`, in a block of eleven bytes.
NO_PARTS = {
    "no bytes": "",
    "a layer without bytes": "8180",
    "a run of no checkpoints": "818180",
    "a byte after the end": "8185818080818b80",
    "an end past the bytes": "8186818080818b",
    "a second spelling of an end": "810580818080818b",
    "more layers than bytes": "7f7f7f7f7f7f7f7f7f81",
    "more checkpoints than bytes": "818a7f7f7f7f7f7f7f7f7f81",
    "a run of 2^32 - 1 checkpoints": "81897f7f7f7f8f8080818b",
    "a block of no documents": "8185818080808b",
    "2^32 - 1 layers": "7f7f7f7f8f",
}
# The same of a block of two documents and three bytes: a second spelling, and a byte after the end.
NO_PARTS_OF_THREE_BYTES = ("8105808180808283", "8185818080828380")
# The same of eight blocks of a document and a byte: runs of seven and of one; and a layer that counts fewer documents
# than the one below.
NO_PARTS_OF_EIGHT = (
    "82879d" "8280808791" "8185" "878080" + "81" * 14 + "8187878181",
    "828598" "8180808793" "888080" + "81" * 16,
)
DOCUMENT = b"abc\0\0\0\0\x01\0\0\0"


def footer(data: bytes, period: int = 8) -> bytes:
    """The footer of a file of this data."""
    return struct.pack("<IQBB14x", 3, len(data), 0, period)


def checkpoints_of(blocks: Blocks) -> list[tuple[int, int, int, int]]:
    """The checkpoints of blocks: the first document, the end of the documents, the first byte and the end."""
    docs, lengths = ([0, *itertools.accumulate(part)] for part in (zip(*blocks) if blocks else ((), ())))
    return list(zip(docs, docs[1:], lengths, lengths[1:]))


def file_with(data: bytes, part: str) -> bytes:
    """The file of this data and this index part."""
    return data + bytes.fromhex(part) + footer(data)


def data_of(part: bytes) -> bytes:
    """As many zeros as the blocks of an index part have bytes, where it is the one encoding of a list; else eight."""
    try:
        found = reference.bottom_layer(part)
    except StopIteration:
        return bytes(8)
    return bytes(found[-1][3] if reference.index_part(found, 8) == part else 8)


class IndexParts(ToolCase):
    def check(self, period: int, blocks: Blocks) -> bytes:
        """A file of these blocks has these checkpoints, and they are written as they were read. Its index part."""
        checkpoints = checkpoints_of(blocks)
        file = file_of(bytes(sum(length for _, length in blocks)), checkpoints, period)
        load, *marks = self.answers([f"load {file.hex()}", "marks 0"])
        self.assertEqual(load, f"store 0 {len(file)}")
        self.assertEqual(marks, ["(doc={}..{}, bytes={}..{})".format(*one) for one in checkpoints] + ["end"])
        written = self.answers([f"load {file.hex()}", f"new 0 {period}", "stack 0", "close", "hex 1"])[-1]
        self.assertEqual(written, file.hex())
        return reference.index_part(checkpoints, period)

    def test_the_parts_of_the_vectors_are_read_and_written(self):
        for period, blocks, part in PARTS:
            with self.subTest(period=period, blocks=blocks):
                self.assertEqual(self.check(period, blocks).hex(), part)

    def test_the_first_byte_counts_the_layers(self):
        for count, layers in LAYERS.items():
            with self.subTest(count=count):
                self.assertEqual(self.check(8, [(1, 1)] * count)[0], 0x80 + layers)

    def test_the_long_part_of_tantivys_test_has_its_length(self):
        part = self.check(8, SQUARES)
        self.assertEqual((len(part), part[:7]), (4035, SQUARES_BEGIN))

    def test_each_list_of_up_to_a_hundred_blocks_is_read_and_written(self):
        for count in LENGTHS:
            self.check(8, [(1, 1)] * count)

    def test_a_seek_finds_each_document_of_each_list_and_nothing_past_its_end(self):
        documents = [f"{number:04x}" for number in LENGTHS]
        lines, wanted = [], []
        for store, (period, count) in enumerate(itertools.product(PERIODS, LENGTHS)):
            lines += [f"new 0 {period}", *(f"put {document}" for document in documents[:count]), "close"]
            lines += [f"get {store} {number}" for number in range(count + 1)]
            wanted += [*documents[:count], "error 6"]
        answers = self.answers(lines)
        self.assertEqual([answer for answer in answers if answer.split(" ")[0] not in ("ok", "id", "store")], wanted)

    def test_what_is_no_part_is_an_error(self):
        files = {why: file_with(DOCUMENT, part) for why, part in NO_PARTS.items()}
        files |= {part: file_with(bytes(3), part) for part in NO_PARTS_OF_THREE_BYTES}
        files |= {part: file_with(bytes(8), part) for part in NO_PARTS_OF_EIGHT}
        lines = [f"load {file.hex()}" for file in files.values()]
        self.assertEqual(dict(zip(files, self.answers(lines))), dict.fromkeys(files, "error 5"))
        sound = file_with(DOCUMENT, "8185818080818b"), file_with(bytes(3), "81858180808283")
        self.assertEqual(self.answers(f"load {file.hex()}" for file in sound), ["store 0 46", "store 1 38"])

    def test_each_other_byte_of_a_part_is_an_error_or_another_part(self):
        """Another part is written again as itself."""
        part = reference.index_part(checkpoints_of([(1, 1)] * 8), 8)
        others = [changed(part, place, bytes([value])) for place in range(len(part)) for value in range(256)]
        lines, wanted, stores = [], [], 0
        for file in (file_with(data_of(other), other.hex()) for other in others):
            lines.append(f"load {file.hex()}")
            if is_accepted(file):
                lines += ["new 0", f"stack {stores}", "close", f"hex {stores + 1}"]
                wanted += [f"store {stores} {len(file)}", "ok", "ok", f"store {stores + 1} {len(file)}", file.hex()]
                stores += 2
            else:
                wanted.append("error 5")
        self.assertEqual(self.answers(lines), wanted)
        self.assertGreater(stores, 2000)

    def test_small_segments_are_merged_into_one_block(self):
        """As tantivy's test of the same name: stores of one document each come into one block."""
        lines = [line for number in range(1, 6) for line in ("new 16384", f"put 3{number}", "close")]
        answers = self.answers([*lines, "merge 16384 0 1 2 3 4", "hex 5"])
        self.assertEqual(answers[-2], "store 5 64")
        self.assertEqual(answers[-1][58:72], "8185818080859d")


def is_accepted(file: bytes) -> bool:
    """Whether the reference reader opens a file."""
    try:
        reference.opened(file)
    except reference.Refused:
        return False
    return True
