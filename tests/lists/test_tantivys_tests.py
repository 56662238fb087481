"""Documents of tantivy's own tests, by those tests' names, and calls that fail between others."""

from __future__ import annotations

from documents.test_reference import reference
from lists.case import ToolCase

# A file of version 1 with the document `abc`.
OLD_FILE = "6162630000000001000000" "8185818080818b" "010000000b000000000000" + "00" * 17
# The block of `x` and an empty document, and its index part.
BLOCK, PART = "78" "00000000" "01000000" "02000000", "8185818080828d"
FOOTER = "03000000" "0d00000000000000" "00" "08" + "00" * 14


def record_of(*fields: bytes) -> bytes:
    """The bytes of a record that has these fields, from 0 on."""
    parts = [reference.spelled(len(fields))]
    for number, field in enumerate(fields):
        parts += [reference.spelled(number), reference.spelled(len(field)), field]
    return b"".join(parts)


class TantivysTests(ToolCase):
    def test_store_with_delete(self):
        documents = [word.encode().hex() for word in ("deleteme", "deletemenot", "deleteme", "deletemenot", "deleteme")]
        lines = ["new 16384", *(f"put {document}" for document in documents), "close", "iter 0 0 2 4"]
        self.assertEqual(self.answers(lines)[-3:], ["64656c6574656d656e6f74", "64656c6574656d656e6f74", "end"])

    def test_store_no_compression_same_thread(self):
        """Each of a thousand records of two fields is got, through a cache of ten blocks, and iterated."""
        records = [(b"a" * 450, f"Doc {number}".encode()) for number in range(1000)]
        lines = ["new 16384", *(f"rec 0 {long.hex()} 1 {short.hex()}" for long, short in records), "close", "open 0 10"]
        lines += [*(f"rget 0 {number}" for number in range(len(records))), "iter 0"]
        answers = self.answers(lines)[len(records) + 3:]
        self.assertEqual(answers[:len(records)], [f"0 {long.hex()} 1 {short.hex()}" for long, short in records])
        self.assertEqual(answers[len(records):], [*(record_of(*fields).hex() for fields in records), "end"])


class FailingCalls(ToolCase):
    def test_a_stack_and_a_record_that_fail_leave_the_block_of_the_other_documents(self):
        lines = [f"load {OLD_FILE}", "new 16384", "put 78", "stack 0", "rec 5 7a", "put -", "close", "hex 1"]
        wanted = ["store 0 46", "ok", "id 0", "error 11", "error 12", "id 1", "store 1 48", BLOCK + PART + FOOTER]
        self.assertEqual(self.answers(lines), wanted)
