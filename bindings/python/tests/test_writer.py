"""Stores that are written by the package."""

import array
import errno
import io
import mmap
import os
import resource
import unittest
from unittest import mock

from in_folder import InFolder
from sparse import end_of
from zevkhadun import Store, Writer, refusals

HEX = os.path.join(os.path.dirname(__file__), "..", "..", "c", "tests", "words.hex")

with open(HEX, encoding="ascii") as text:
    FILE = bytes.fromhex(text.read())


def documents_of(count, seed):
    """Documents of 0, 8, 100 and 20000 bytes in turn, each of its own bytes."""
    lengths = [0, 8, 100, 0, 20000, 8]
    return [bytes([(seed + number) % 256]) * lengths[number % len(lengths)] for number in range(count)]


class Contents(InFolder):
    def test_documents_come_back_for_any_block_size_and_period(self):
        documents = documents_of(60, 1)
        for block_size in [0, 1, 50, 16384, 2**64 - 1]:
            for period in [2, 8, 64]:
                self.written(documents, block_size=block_size, period=period)
                self.assertEqual(self.documents(), documents)
                self.assertEqual(os.listdir(self.folder), ["a.store"])

    def test_a_known_file_is_written_byte_for_byte(self):
        with open(self.at("known"), "wb") as file:
            file.write(FILE)
        self.written(self.documents("known"), block_size=120, period=3)
        self.assertEqual(self.content(), FILE)

    def test_an_iterable_may_use_the_memory_of_a_document_again(self):
        """Of short and long ones, and by a view; one that is `bytes` never changes."""
        for length in (4, 1 << 16, (1 << 16) + 1, 2 << 20):
            buffer = bytearray(length)
            wanted = [b"%04d" % number * (length // 4) for number in range(9)]

            def documents(given):
                for content in wanted:
                    buffer[:len(content)] = content
                    yield given

            for given in (buffer, memoryview(buffer)):
                with Writer(self.at("b.store"), replace=True) as writer:
                    writer.extend(documents(given))
                self.assertTrue(self.documents("b.store") == [content.ljust(length, b"\0") for content in wanted])

    def test_an_iterable_may_change_the_length_of_its_buffer(self):
        def documents():
            buffer = bytearray()
            for length in (1, 1 << 17, 5, 0, 70_000):
                buffer[:] = bytes([length % 251]) * length
                yield buffer

        with Writer(self.path) as writer:
            writer.extend(documents())
        wanted = [bytes([length % 251]) * length for length in (1, 1 << 17, 5, 0, 70_000)]
        self.assertTrue(self.documents() == wanted)

    def test_all_kinds_of_bytes_are_put(self):
        numbers = array.array("I", [1, 2, 3])
        grid = memoryview(bytes(range(6))).cast("B", (2, 3))
        kinds = [b"ab", bytearray(b"cd"), memoryview(b"efgh")[1:3], memoryview(b"efgh")[::2], numbers, grid]
        self.written(kinds)
        self.assertEqual(self.documents(), [b"ab", b"cd", b"fg", b"eg", numbers.tobytes(), bytes(range(6))])

    def test_what_has_no_bytes_is_refused_and_the_writer_goes_on(self):
        with Writer(self.path) as writer:
            writer.put(b"a")
            for wrong in ["text", 7, None, [1]]:
                with self.assertRaises(TypeError):
                    writer.put(wrong)
            self.assertEqual(writer.put(b"b"), 1)
        self.assertEqual(self.documents(), [b"a", b"b"])

    def test_a_file_where_nothing_was_put_has_no_documents(self):
        self.written([])
        self.assertEqual(self.documents(), [])

    def test_a_hundred_thousand_documents_come_back(self):
        documents = [b"%d" % number for number in range(100000)]
        # A block each, so the table grows; and one block of all, so the starts do.
        for block_size in [0, 2**32]:
            self.written(documents, block_size=block_size)
            # Not assertEqual, which is slow to tell how long lists differ.
            self.assertTrue(self.documents() == documents)

    def test_documents_longer_than_the_buffer_come_back(self):
        documents = [b"a" * 10, b"b" * (3 << 20), b"c", b"d" * (1 << 20), b"e" * ((1 << 20) - 1), b"f"]
        self.written(documents)
        self.assertTrue(self.documents() == documents)


class Stacking(InFolder):
    def test_stacked_stores_have_the_documents_of_both_in_order(self):
        first, second = documents_of(40, 1), documents_of(50, 77)
        self.written(first, "b", block_size=50)
        self.written(second, "c", block_size=1000, period=3)
        self.stacked("a.store", "b", "c")
        self.assertEqual(self.documents(), first + second)

    def test_two_shapes_give_one_file(self):
        for name, count, size in [("a", 30, 50), ("b", 0, 1), ("c", 3, 1), ("d", 200, 16384)]:
            self.written(documents_of(count, count), name, block_size=size)
        for first, second, third in ["acd", "bca", "dbc"]:
            self.stacked("left", first, second, block_size=7, period=2)
            self.stacked("right", second, third, block_size=9, period=5)
            left = self.stacked("both", "left", third)
            self.assertEqual(left, self.stacked("other", first, "right"))
            self.assertEqual(
                self.documents("both"), self.documents(first) + self.documents(second) + self.documents(third)
            )

    def test_documents_are_put_before_and_after_a_store(self):
        inner = documents_of(300, 5)
        self.written(inner, "b", block_size=1)
        with Writer(self.path) as writer, Store(self.at("b")) as store:
            self.assertEqual(writer.put(b"first"), 0)
            writer.stack(store)
            self.assertEqual(len(writer), 301)
            self.assertEqual(writer.put(b"last"), 301)
        self.assertEqual(self.documents(), [b"first", *inner, b"last"])

    def test_a_store_is_stacked_into_its_own_file(self):
        self.written([b"a", b"b"])
        self.stacked("a.store", "a.store", "a.store")
        self.assertEqual(self.documents(), [b"a", b"b", b"a", b"b"])

    def test_a_refused_store_leaves_the_file_that_would_have_been(self):
        documents = documents_of(20, 3)
        self.written(documents, "wanted")
        old = bytearray(self.content("wanted"))
        # Version 1 has no place for a period, which is 8 there.
        old[-28] = 1
        old[-15] = 0
        with open(self.at("old"), "wb") as file:
            file.write(old)
        closed = Store(self.at("wanted"))
        closed.close()
        with Writer(self.path) as writer, Store(self.at("old")) as store:
            for number, document in enumerate(documents):
                with self.assertRaises(refusals.OldVersion):
                    writer.stack(store)
                with self.assertRaises(refusals.Closed):
                    writer.stack(closed)
                self.assertEqual(writer.put(document), number)
        self.assertEqual(self.content(), self.content("wanted"))


class Ends(InFolder):
    def test_closed_twice_is_fine_and_a_put_is_refused(self):
        writer = Writer(self.path)
        writer.put(b"a")
        writer.close()
        before = self.content()
        writer.close()
        writer.discard()
        for call in [lambda: writer.put(b"b"), lambda: writer.stack(Store(self.path))]:
            with self.assertRaisesRegex(ValueError, "the writer is closed"):
                call()
        self.assertEqual(self.content(), before)

    def test_a_writer_that_is_discarded_in_a_with_leaves_no_file(self):
        with Writer(self.path) as writer:
            writer.put(b"a")
            writer.discard()
            with self.assertRaises(refusals.Closed):
                writer.put(b"b")
        self.assertEqual(os.listdir(self.folder), [])

    def test_bad_periods_and_block_sizes_change_nothing(self):
        for period in [-1, 0, 1, 65, 256 + 8]:
            with self.assertRaises(refusals.BadPeriod):
                Writer(self.path, period=period)
        for block_size in [-1, 2**64]:
            with self.assertRaises(ValueError):
                Writer(self.path, block_size=block_size)
        for wrong in ["8", 8.0, None]:
            with self.assertRaises(TypeError):
                Writer(self.path, period=wrong)
            with self.assertRaises(TypeError):
                Writer(self.path, block_size=wrong)
        self.assertEqual(os.listdir(self.folder), [])

    def test_what_is_too_large_is_refused_and_the_writer_goes_on(self):
        with Writer(self.path, block_size=0) as writer, mmap.mmap(-1, 2**32) as large:
            with self.assertRaises(refusals.BlockTooLarge):
                writer.put(large)
            writer.put(b"a")
            with self.assertRaises(refusals.BlockTooLarge):
                writer.extend([b"b", large, b"not added"])
            self.assertEqual(writer.put(b"c"), 2)
        self.assertEqual(self.documents(), [b"a", b"b", b"c"])

    def test_more_documents_than_a_store_can_have_are_refused_and_the_writer_goes_on(self):
        # A store whose one block claims all documents but one, in four bytes.
        full = b"full" + end_of([(2**32 - 2, 4)])
        with Writer(self.path, block_size=0) as writer:
            writer.stack(full)
            self.assertEqual(len(writer), 2**32 - 2)
            self.assertEqual(writer.put(b"last"), 2**32 - 2)
            for call in [lambda: writer.put(b"b"), lambda: writer.extend([b"b"]), lambda: writer.stack(full)]:
                with self.assertRaises(refusals.TooManyDocs):
                    call()
        with Store(self.path) as store:
            self.assertEqual((len(store), store[-1]), (2**32 - 1, b"last"))

    def failing(self, patched, act):
        """A call of the system fails, and the writer refuses all that follows."""
        self.written([b"old"])
        writer = Writer(self.path, replace=True)
        writer.put(b"new")
        with patched, self.assertRaises(OSError):
            act(writer)
        for call in [writer.close, lambda: writer.put(b"b")]:
            with self.assertRaises(refusals.Failed):
                call()
        self.assertEqual(self.documents(), [b"old"])
        self.assertEqual(os.listdir(self.folder), ["a.store"])

    def test_a_full_disk_is_an_error_and_the_writer_takes_no_more(self):
        full = OSError(errno.ENOSPC, "full")
        at_write = mock.patch("zevkhadun.output.Output.write", side_effect=full)
        self.failing(at_write, lambda writer: writer.put(b"x" * (2 << 20)))
        self.failing(at_write, lambda writer: writer.close())
        self.failing(mock.patch("os.fsync", side_effect=full), lambda writer: writer.close())
        self.failing(mock.patch("os.replace", side_effect=full), lambda writer: writer.close())

    def test_a_file_that_may_not_grow_leaves_the_old_one(self):
        soft, hard = resource.getrlimit(resource.RLIMIT_FSIZE)
        self.written([b"old"])
        writer = Writer(self.path, replace=True)
        resource.setrlimit(resource.RLIMIT_FSIZE, (1 << 16, hard))
        try:
            with self.assertRaises(OSError):
                writer.put(b"x" * (2 << 20))
        finally:
            resource.setrlimit(resource.RLIMIT_FSIZE, (soft, hard))
        with self.assertRaises(refusals.Failed):
            writer.close()
        self.assertEqual(self.documents(), [b"old"])
        self.assertEqual(os.listdir(self.folder), ["a.store"])

    def test_a_failure_that_is_caught_in_a_with_is_raised_at_its_end(self):
        with self.assertRaises(refusals.Failed):
            with Writer(self.path) as writer:
                with mock.patch("zevkhadun.output.Output.write", side_effect=MemoryError):
                    with self.assertRaises(MemoryError):
                        writer.put(b"a" * (2 << 20))
        self.assertEqual(os.listdir(self.folder), [])

    def test_short_writes_are_gone_on_with(self):
        writer = Writer(self.path)
        output = writer._output
        output._file.close()
        output._file = Slow(self.beside, "r+b")
        documents = [b"abc" * 1000, b"de"]
        for document in documents:
            writer.put(document)
        writer.close()
        self.assertEqual(self.documents(), documents)


class Slow(io.FileIO):
    """A file that takes up to 100 bytes at once."""

    def write(self, content):
        return super().write(bytes(content[:100]))


if __name__ == "__main__":
    unittest.main()
