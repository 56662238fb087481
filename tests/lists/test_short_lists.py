"""Every list of up to four calls out of five, at six block sizes.

Three calls store a document, and two stack a store. What is read of each closed store, with caches of three capacities,
is what a plain list of the documents has: by id, in order, and nothing past the end.
"""

from __future__ import annotations

import itertools
from collections.abc import Iterator

from lists.case import ToolCase

# At 0 each document is a block. A document counts eight bytes more than it has: the other sizes but the last are those
# of one document or of two empty ones, or one less. With the last, all documents wait for a stacking or for the end.
BLOCK_SIZES = (0, 8, 9, 15, 16, 100)
CAPACITIES = (0, 1, 2)

# The stores 0 and 1, which two of the calls stack.
STORES = ["new 100", "put -", "put 64", "close", "new 0", "put 65", "put 666768", "close"]
CALLS = {
    "put -": ["-"],
    "put 61": ["61"],
    "put 6263": ["6263"],
    "stack 0": ["-", "64"],
    "stack 1": ["65", "666768"],
}
# The answer to a close, which says the number of the store and how many bytes it has.
CLOSED = None


def lists() -> Iterator[tuple[str, ...]]:
    """Each list of calls."""
    for length in range(5):
        yield from itertools.product(CALLS, repeat=length)


def questions(store: int, documents: list[str]) -> Iterator[tuple[str, list[str]]]:
    """The lines that read a store of these documents, each with its answers."""
    for capacity in CAPACITIES:
        yield f"open {store} {capacity}", ["ok"]
        for doc_id, document in enumerate(documents):
            yield f"get {store} {doc_id}", [document]
        yield f"iter {store}", [*documents, "end"]
        for doc_id, document in enumerate(documents):
            yield f"get {store} {doc_id}", [document]
        yield f"get {store} {len(documents)}", ["error 6"]


def script(block_size: int) -> tuple[list[str], list[str | None]]:
    """A script over all lists at a block size, and its answers."""
    lines, answers = list(STORES), ["ok", "id 0", "id 1", CLOSED, "ok", "id 0", "id 1", CLOSED]
    for store, calls in enumerate(lists(), start=2):
        documents: list[str] = []
        lines.append(f"new {block_size}")
        answers.append("ok")
        for call in calls:
            lines.append(call)
            answers.append(f"id {len(documents)}" if call.startswith("put") else "ok")
            documents += CALLS[call]
        lines.append("close")
        answers.append(CLOSED)
        for line, expected in questions(store, documents):
            lines.append(line)
            answers += expected
    return lines, answers


class ShortLists(ToolCase):
    def assert_answers(self, answers: list[str], expected: list[str | None]) -> None:
        """Each answer is the expected one; the stores that are closed have numbers from 0 on."""
        self.assertEqual(len(answers), len(expected), "answers")
        closed = itertools.count()
        for number, (answer, wanted) in enumerate(zip(answers, expected), start=1):
            if wanted is CLOSED:
                self.assertRegex(answer, rf"^store {next(closed)} \d+$", f"line {number} of the answers")
            elif answer != wanted:
                self.fail(f"line {number} of the answers: {answer}, and not {wanted}")

    def test_each_list_of_calls_is_read_as_it_was_written(self):
        self.assertEqual(sum(1 for _ in lists()), 781, "lists of calls")
        for block_size in BLOCK_SIZES:
            with self.subTest(block_size=block_size):
                lines, expected = script(block_size)
                self.assert_answers(self.answers(lines), expected)
