"""A store as a sequence: many documents at once, views, other kinds of bytes, processes, and what errors say."""

import array
import gc
import mmap
import multiprocessing
import os
import pickle
import unittest
from collections.abc import Sequence

from sparse import end_of
from words import DOCUMENTS, FILE, InFile
from zevkhadun import Store, Writer, ZevkhadunError, refusals


class Index:
    """A number that is no int, as numpy has them."""

    def __init__(self, number):
        self.number = number

    def __index__(self):
        return self.number


def damaged():
    """The store of FILE, where the table of the first block doesn't say where document 3 ends and 4 begins."""
    return FILE[:108] + b"\xff" * 4 + FILE[112:]


# Its documents, with None in place of those that are damaged.
DAMAGED = DOCUMENTS[:3] + [None, None] + DOCUMENTS[5:]


def document_of(store, number):
    """What another process reads of a store that it gets."""
    return store[number]


class OneByOne(InFile):
    """Documents that are asked for one after the other: their places are found ahead of time."""

    def test_any_order_of_numbers_gives_their_documents(self):
        documents = [b"%d" % number * (number % 3) for number in range(3000)]
        with Writer(self.path, block_size=500) as writer:
            writer.extend(documents)
        orders = [
            range(3000), range(2999, -1, -1), range(0, 3000, 2), [0, 0, 1, 1, 2, 2, 0, 1, 2],
            [number + step for number in range(0, 2900, 100) for step in (0, 1, 2, 3, 50, 4, 5, 6, 7, 8, 9, 7)],
            [number for pair in zip(range(1500), range(1500, 3000)) for number in pair],
        ]
        for order in orders:
            with Store(self.path) as store:
                self.assertTrue([store[number] for number in order] == [documents[number] for number in order])
                self.assertTrue([bytes(store.view(number)) for number in order] == [documents[n] for n in order])

    def test_damage_is_met_where_it_is_and_what_follows_is_read(self):
        with Store(damaged()) as store:
            for _ in range(2):
                found = []
                for number in range(len(store)):
                    try:
                        found.append(store[number])
                    except refusals.DamagedDocument as error:
                        self.assertEqual(error.document, number)
                        found.append(None)
                self.assertEqual(found, DAMAGED)

    def test_the_last_document_has_none_after_it(self):
        with Store(FILE) as store:
            self.assertEqual([store[62], store[63]], DOCUMENTS[62:])
            with self.assertRaises(refusals.NoDocument):
                store[64]
            self.assertEqual([store[63], store[0], store[-1]], [DOCUMENTS[63], DOCUMENTS[0], DOCUMENTS[63]])

    def test_a_store_without_documents_has_none(self):
        with Writer(self.path):
            pass
        with Store(self.path) as store, self.assertRaises(refusals.NoDocument):
            store[0]


class ManyDocuments(InFile):
    def test_a_store_is_a_sequence(self):
        with Store(FILE) as store:
            self.assertIsInstance(store, Sequence)
            self.assertEqual((store.index(DOCUMENTS[7]), store.count(b"")), (7, DOCUMENTS.count(b"")))
            self.assertEqual(list(reversed(store)), DOCUMENTS[::-1])
            self.assertNotIn(b"no document", store)

    def test_slices_of_any_step_are_those_of_a_list(self):
        bounds = [None, 0, 1, 5, 63, 64, 70, -1, -64, -70]
        with Store(FILE) as store:
            for start in bounds:
                for stop in bounds:
                    for step in [None, 1, 2, 7, 100, -1, -3, -100]:
                        self.assertEqual(store[start:stop:step], DOCUMENTS[start:stop:step])

    def test_a_long_slice_and_many_numbers_take_several_runs(self):
        documents = [b"%d" % number * (number % 3) for number in range(10_000)]
        with Writer(self.path) as writer:
            writer.extend(documents)
        numbers = [number * 7919 % 10_000 for number in range(10_000)]
        with Store(self.path) as store:
            self.assertTrue(store[1:-1] == documents[1:-1])
            self.assertTrue(store.get_many(numbers) == [documents[number] for number in numbers])

    def test_numbers_of_any_kind_are_got_at_once(self):
        kinds = [[0, -1, 5, 5], (3,), range(0, 64, 9), iter([1, 2]), array.array("I", [7, 0]), [Index(4), True], []]
        with Store(FILE) as store:
            for numbers in kinds:
                wanted = [1, 2] if not isinstance(numbers, Sequence) and not hasattr(numbers, "tolist") else numbers
                expected = [DOCUMENTS[number] for number in wanted]
                self.assertEqual(store.get_many(numbers), expected)
            self.assertEqual(store.__getitems__([2, 1]), [DOCUMENTS[2], DOCUMENTS[1]])
            self.assertEqual(store[Index(3)], DOCUMENTS[3])

    def test_numbers_that_no_document_has_are_refused(self):
        with Store(FILE) as store:
            for number in [64, -65, 2**32, 2**64, -(2**100)]:
                for call in [store.__getitem__, store.view, lambda number: store.get_many([0, number])]:
                    with self.assertRaises(refusals.NoDocument):
                        call(number)
            for wrong in ["a", 1.0, None, (1,)]:
                for call in [store.__getitem__, store.view, lambda number: store.get_many([0, number])]:
                    with self.assertRaises(TypeError):
                        call(wrong)
            with self.assertRaises(TypeError):
                store.get_many(7)

    def test_an_iteration_raises_skips_or_gives_none(self):
        with Store(damaged()) as store:
            self.assertEqual(list(store.iter(damaged="skip")), DOCUMENTS[:3] + DOCUMENTS[5:])
            self.assertEqual(list(store.iter(damaged="none")), DAMAGED)
            documents = store.iter()
            self.assertEqual([next(documents) for _ in range(3)], DOCUMENTS[:3])
            with self.assertRaises(refusals.DamagedDocument) as caught:
                next(documents)
            self.assertEqual(caught.exception.document, 3)
            self.assertEqual(list(documents), [])
            many = [lambda: store[2:9], lambda: store[3::60], lambda: store.get_many([5, 3])]
            for call in [*many, lambda: store.view(3)]:
                with self.assertRaises(refusals.DamagedDocument) as caught:
                    call()
                self.assertEqual(caught.exception.document, 3)
            for wrong in ["ignore", None]:
                with self.assertRaises((ValueError, TypeError)):
                    store.iter(damaged=wrong)

    def test_verify_names_the_first_fault(self):
        with Store(FILE) as store:
            store.verify()
        with Store(self.written(damaged())) as store, self.assertRaises(refusals.DamagedDocument) as caught:
            store.verify()
        self.assertEqual((caught.exception.document, caught.exception.path), (3, self.path))
        with self.assertRaises(refusals.Closed):
            store.verify()


class Views(InFile):
    def test_a_view_has_the_bytes_of_the_file(self):
        with Store(self.written()) as store:
            for number in [0, 1, 5, 63, -1]:
                with store.view(number) as view:
                    self.assertEqual((bytes(view), view.readonly, view.nbytes), (
                        DOCUMENTS[number], True, len(DOCUMENTS[number])
                    ))
            with memoryview(store) as file:
                self.assertEqual(bytes(file), FILE)

    def test_a_store_with_views_stays_open(self):
        store = Store(self.written())
        views = [store.view(1), store.view(2)[1:]]
        for view in views:
            with self.assertRaises(BufferError):
                store.close()
            self.assertEqual(store[3], DOCUMENTS[3])
            view.release()
        store.close()
        with self.assertRaises(refusals.Closed):
            memoryview(store)
        with self.assertRaises(refusals.Closed):
            store.view(1)

    def test_a_view_keeps_its_file_open(self):
        view = Store(self.written()).view(1)
        os.remove(self.path)
        gc.collect()
        self.assertEqual(bytes(view), DOCUMENTS[1])

    def test_a_dropped_store_lets_its_map_go(self):
        def maps():
            with open("/proc/self/maps", encoding="utf-8") as lines:
                return sum(self.path in line for line in lines)

        store = Store(self.written())
        documents = iter(store)
        next(documents)
        self.assertEqual(maps(), 1)
        del store, documents
        self.assertEqual(maps(), 0)


class Kinds(InFile):
    def test_any_bytes_are_a_store(self):
        with open(self.written(), "rb") as file, mmap.mmap(file.fileno(), 0, access=mmap.ACCESS_READ) as mapped:
            for content in [FILE, bytearray(FILE), memoryview(FILE), mapped]:
                with Store(content) as store:
                    self.assertEqual(list(store), DOCUMENTS)
                    self.assertIsNone(store.path)

    def test_bytes_are_held_until_the_store_is_closed(self):
        content = bytearray(FILE)
        store = Store(content)
        with self.assertRaises(BufferError):
            content.clear()
        store.close()
        content.clear()

    def test_what_is_no_path_and_has_no_bytes(self):
        for wrong in [7, None, [1], 1.5, memoryview(FILE)[::2]]:
            with self.assertRaises((TypeError, BufferError)):
                Store(wrong)
        with self.assertRaises(FileNotFoundError) as caught:
            Store(self.path)
        self.assertEqual(caught.exception.filename, self.path)
        with self.assertRaises(IsADirectoryError) as caught:
            Store(os.path.dirname(self.path))
        self.assertEqual(caught.exception.filename, os.path.dirname(self.path))

    def test_a_store_is_opened_once(self):
        with Store(FILE) as store:
            with self.assertRaises(RuntimeError):
                store._open_buffer(FILE, True)
            self.assertEqual(list(store), DOCUMENTS)
        unopened = Store.__new__(Store)
        for call in [unopened.verify, unopened._footer, lambda: unopened[:], lambda: list(unopened)]:
            with self.assertRaises(refusals.Closed):
                call()
        self.assertEqual(len(unopened), 0)

    def test_a_store_has_the_facts_of_its_file(self):
        with Store(self.written()) as store:
            facts = (len(store), store.num_blocks, store.size, store.data_size, store.version, store.period)
            self.assertEqual(facts, (64, 13, len(FILE), 1524, 3, 3))
            self.assertEqual(store.path, self.path)
            self.assertEqual(repr(store), f"Store({self.path!r}, 64 documents)")
        self.assertEqual(repr(store), f"Store({self.path!r}, closed)")
        self.assertEqual((len(store), store.num_blocks, store.size), (64, 13, len(FILE)))
        with self.assertRaises(refusals.Closed):
            store.version
        old = bytearray(FILE[:1524] + end_of([(64, 1524)]))
        old[-28], old[-15] = 2, 0
        with Store(old) as store:
            self.assertEqual((store.version, store.period, repr(store)), (2, 8, "Store(buffer, 64 documents)"))


class Processes(InFile):
    def test_a_store_is_pickled_by_its_path(self):
        before = os.getcwd()
        self.addCleanup(os.chdir, before)
        os.chdir(os.path.dirname(self.written()))
        with Store("a.store") as store:
            pickled = pickle.dumps(store)
        os.chdir(before)
        with pickle.loads(pickled) as store:
            self.assertEqual((type(store), list(store)), (Store, DOCUMENTS))

    def test_bytes_are_pickled_and_what_else_is_open_is_not(self):
        with pickle.loads(pickle.dumps(Store(FILE))) as store:
            self.assertEqual(list(store), DOCUMENTS)
        with Store(bytearray(FILE)) as store, self.assertRaises(TypeError):
            pickle.dumps(store)
        with self.assertRaises(TypeError):
            pickle.dumps(store)

    def test_processes_that_are_spawned_read_it(self):
        with Store(self.written()) as store, multiprocessing.get_context("spawn").Pool(2) as pool:
            documents = pool.starmap(document_of, [(store, number) for number in range(0, 64, 9)])
        self.assertEqual(documents, DOCUMENTS[::9])


class Errors(InFile):
    def test_errors_name_the_file(self):
        self.written(b"x" * 100)
        with self.assertRaises(refusals.BadVersion) as caught:
            Store(self.path)
        self.assertEqual(caught.exception.path, self.path)
        self.assertEqual(str(caught.exception), f"{self.path}: The footer has an unknown version.")
        with Store(self.written()) as store, self.assertRaises(refusals.NoDocument) as caught:
            store[64]
        self.assertEqual((caught.exception.path, caught.exception.document), (self.path, 64))
        self.assertIn("document 64", str(caught.exception))
        os.remove(self.path)
        with Writer(self.path), self.assertRaises(refusals.Busy) as caught:
            Writer(self.path)
        self.assertEqual(caught.exception.path, self.path + ".part")

    def test_errors_are_pickled_and_have_one_base(self):
        with Store(self.written()) as store, self.assertRaises(ZevkhadunError) as caught:
            store[64]
        error = pickle.loads(pickle.dumps(caught.exception))
        self.assertEqual((type(error), str(error), error.path), (refusals.NoDocument, str(caught.exception), self.path))
        self.assertIs(ZevkhadunError, refusals.Refused)


if __name__ == "__main__":
    unittest.main()
