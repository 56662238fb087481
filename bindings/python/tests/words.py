"""A store of 64 documents, their bytes, and what its tests share: a file of it in a folder of their own."""

import os
import tempfile
import unittest

HEX = os.path.join(os.path.dirname(__file__), "..", "..", "c", "tests", "words.hex")
# A store of no documents: an index of no layers, and the footer.
EMPTY = bytes.fromhex("8003000000000000000000000000080000000000000000000000000000")


def document(number):
    text = b"%d is a document's number" % number
    return b"" if number % 5 == 0 else text[: len(text) - number % 3]


DOCUMENTS = [document(number) for number in range(64)]

with open(HEX, encoding="ascii") as text:
    FILE = bytes.fromhex(text.read())


class InFile(unittest.TestCase):
    def setUp(self):
        folder = tempfile.TemporaryDirectory()
        self.addCleanup(folder.cleanup)
        self.path = os.path.join(folder.name, "a.store")

    def written(self, content=FILE):
        with open(self.path, "wb") as file:
            file.write(content)
        return self.path
