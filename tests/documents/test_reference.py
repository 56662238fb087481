"""docs/reference_reader.py answers the outside vectors as they want it: it opens the stores and refuses the rest."""

from __future__ import annotations

import importlib.util
import re
import struct
import subprocess
import sys

from documents.case import Rules
from documents.pages import text_of
from harness import SECONDS, TOP
from vectors.scripts import SINGLE, Script, bytes_of, scripts

PAGE = TOP / "docs/reference_reader.py"
ERRORS = dict(re.findall(r"StoreError::(\w+)(?:\(_\))? => (\d+)", text_of(TOP / "crates/store_base/src/error.rt")))


def loaded():
    """The module of the reader."""
    spec = importlib.util.spec_from_file_location("reference_reader", PAGE)
    module = importlib.util.module_from_spec(spec)
    spec.loader.exec_module(module)
    return module


reference = loaded()


class Reading:
    """A file, as the reference reader answers commands about it."""

    def __init__(self, file: bytes) -> None:
        self.file = file
        self.checkpoints = reference.opened(file)
        self.num_docs = self.checkpoints[-1][1] if self.checkpoints else 0

    def get(self, number: int) -> str:
        """The answer to `get`."""
        try:
            return reference.document(self.file, self.checkpoints, number).hex() or "-"
        except reference.Refused as refused:
            return f"error {ERRORS[str(refused)]}"

    def iter(self, *left_out: str) -> list[str]:
        """The answer to `iter`."""
        return [*(self.get(number) for number in range(self.num_docs) if str(number) not in left_out), "end"]

    def dump(self) -> list[str]:
        """The answer to `dump`."""
        return [*(f"{number} {self.get(number)}" for number in range(self.num_docs)), "end"]

    def marks(self) -> list[str]:
        """The answer to `marks`."""
        form = "(doc={}..{}, bytes={}..{})"
        return [*(form.format(*checkpoint) for checkpoint in self.checkpoints), "end"]


def opening_of(file: bytes) -> str:
    """How a file is opened: the number of the error, or nothing."""
    try:
        reference.opened(file)
    except reference.Refused as refused:
        return f"error {ERRORS[str(refused)]}"
    return ""


def file_of(data: bytes, checkpoints: list[tuple[int, int, int, int]], period: int = 8) -> bytes:
    """A file of this data and these checkpoints."""
    footer = struct.pack("<IQBB14x", 3, len(data), 0, period)
    return data + reference.index_part(checkpoints, max(period, 2)) + footer


def block_of(*numbers: int, data: bytes = b"abc") -> bytes:
    """A file with one block of two documents: its data, and after them these numbers of four bytes."""
    block = data + struct.pack(f"<{len(numbers)}I", *numbers)
    return file_of(block, [(0, 2, 0, len(block))])


# Files at the limits of the format, and how each is opened.
OPENINGS = {
    "the least period": (file_of(b"abc", [(0, 1, 0, 3)], 2), ""),
    "the greatest period": (file_of(b"abc", [(0, 1, 0, 3)], 64), ""),
    "a period below": (file_of(b"abc", [(0, 1, 0, 3)], 1), "error 16"),
    "a period above": (file_of(b"abc", [(0, 1, 0, 3)], 65), "error 16"),
    "all numbers": (file_of(b"abc", [(0, 2**32 - 1, 0, 3)]), ""),
    "a number too many": (file_of(b"abc", [(0, 2**32, 0, 3)]), "error 5"),
    "a block without documents": (file_of(b"abc", [(0, 0, 0, 3)]), "error 5"),
    "a block without bytes": (file_of(b"", [(0, 1, 0, 0)]), "error 5"),
    "blocks that begin late": (file_of(b"abc", [(1, 2, 0, 3)]), "error 5"),
    "data without blocks": (file_of(b"abc", []), "error 5"),
}
# Files with one block, and the answers to gets of its two documents.
BLOCKS = {
    "sound": (block_of(0, 2, 2), ["6162", "63"]),
    "three bytes": (file_of(b"abc", [(0, 2, 0, 3)]), ["error 7"] * 2),
    "a count of one": (block_of(0, 1), ["616263", "error 7"]),
    "a table that doesn't fit": (block_of(0, 9), ["error 7"] * 2),
    "a start after its end": (block_of(2, 1, 2), ["error 7", "6263"]),
    "an end in the table": (block_of(0, 4, 2), ["error 7"] * 2),
}


# Words on the command line, and the error that they end with.
STORE = TOP / "crates/zevkhadun/data/three.store"
ERRORS_OF_WORDS = (
    ([PAGE], "BadVersion"),
    ([STORE, "3"], "InvalidArgument"),
    ([STORE, "x"], "invalid literal for int() with base 10: 'x'"),
    (["none.store"], "[Errno 2] No such file or directory: 'none.store'"),
)


class Reference(Rules):
    def answer(self, reading: Reading, words: list[str]) -> list[str]:
        """The answer of the reference reader to a command."""
        if words[0] == "get":
            return [reading.get(int(words[2]))]
        if words[0] == "iter":
            return reading.iter(*words[2:])
        return reading.dump() if words[0] == "dump" else reading.marks()

    def check_openings(self, script: Script) -> int:
        """Each file that the script loads is opened or refused as the answer says. Returns how many there are."""
        loads = [(words, answer[0]) for words, answer in script.answers if words[0] == "load" and answer[0] != "bad"]
        for words, answer in loads:
            wanted = answer if answer.startswith("error") else ""
            with self.subTest(script.name, file=words[1][:60]):
                self.assertEqual(opening_of(bytes_of(words[1])), wanted)
        return len(loads)

    def check_documents(self, script: Script) -> int:
        """Each answer about a store whose bytes are known is the reader's. Returns how many there are."""
        readings = {number: Reading(file) for number, file in script.stores.items()}
        asked = [
            (words, answer) for words, answer in script.answers
            if words[0] in ("get", "iter", "dump", "marks") and answer[0] not in SINGLE and words[1] in readings
        ]
        for words, answer in asked:
            with self.subTest(script.name, command=" ".join(words)):
                self.assertEqual(self.answer(readings[words[1]], words), answer)
        return len(asked)

    def test_it_opens_the_files_that_are_stores_and_refuses_the_others_by_name(self):
        self.assert_looked_at(sum(map(self.check_openings, scripts())), 586, "files that are loaded")

    def test_it_gives_the_documents_and_the_checkpoints(self):
        self.assert_looked_at(sum(map(self.check_documents, scripts())), 1296, "answers about known files")

    def test_it_keeps_the_limits_of_the_format(self):
        for name, (file, wanted) in OPENINGS.items():
            with self.subTest(name):
                self.assertEqual(opening_of(file), wanted)

    def test_a_slot_is_a_part_of_the_data_or_damaged(self):
        for name, (file, wanted) in BLOCKS.items():
            with self.subTest(name):
                self.assertEqual([Reading(file).get(number) for number in range(2)], wanted)

    def test_the_files_that_are_stores_have_the_one_encoding_of_their_checkpoints(self):
        """The reader's encoder is a writer of the index, too."""
        files = {file for script in scripts() for file in script.stores.values()}
        for file in files:
            index = reference.index_part(reference.opened(file), file[-15] if file[-28] == 3 else 8)
            self.assertEqual(file[-28 - len(index):-28], index)
        self.assert_looked_at(len(files), 80, "stores")

    def run_reader(self, *words) -> tuple[int, str, str]:
        """The status of the reader, its output and its errors."""
        done = subprocess.run([sys.executable, PAGE, *words], capture_output=True, text=True, timeout=SECONDS)
        return done.returncode, done.stdout, done.stderr

    def test_it_prints_documents_or_one_line_that_says_why_not(self):
        self.assertEqual(self.run_reader(STORE, "1", "0"), (0, "two\none\n", ""))
        self.assertEqual(self.run_reader(STORE), (0, "one\ntwo\nthree\n", ""))
        for words, error in ERRORS_OF_WORDS:
            self.assertEqual(self.run_reader(*words), (1, "", f"reference_reader.py: {error}\n"))
        self.assertIn("reference_reader.py FILE [NUMBER]..", self.run_reader("--help")[1])
