"""Stores that are opened with check=False, beside those whose index is checked."""

import os
import pickle
import random
import threading
import unittest
from itertools import islice

from words import DOCUMENTS, EMPTY, FILE, InFile
from zevkhadun import Store, Stores, Writer, refusals

# More blocks than an outline has rows, where each document has a block.
MANY = [b"%d" % number * (number % 4) for number in range(5000)]
# What a get of a damaged file may raise.
DAMAGE = (refusals.DamagedDocument, refusals.BadIndex)


def answer(call):
    """What a call returns, or the class of the error that it raises and its document."""
    try:
        return call()
    except refusals.Refused as error:
        return type(error), error.document


class WithoutCheck(InFile):
    def written_documents(self, documents, **options):
        """The path of a store of these documents."""
        with Writer(self.path, replace=True, **options) as writer:
            writer.extend(documents)
        return self.path

    def stores(self):
        """Paths of stores of many sizes: without documents, of one block, and of more blocks than an outline has rows.
        """
        yield self.written(FILE)
        yield self.written(EMPTY)
        # Documents 3 and 4 are damaged.
        yield self.written(FILE[:108] + b"\xff" * 4 + FILE[112:])
        for count in [0, 1, 2, 7, 100, 1023, 1024, 1025, 5000]:
            for block_size, period in [(1, 2), (1, 8), (30, 3), (16384, 64)]:
                yield self.written_documents(MANY[:count], block_size=block_size, period=period)

    def pairs(self):
        """Each of these stores, opened with the check and without."""
        for path in self.stores():
            with Store(path) as checked, Store(path, check=False) as store:
                yield checked, store

    def many_blocks(self):
        """The bytes of a store of 1500 documents, each in a block of its own, and where its index begins."""
        with open(self.written_documents(MANY[:1500], block_size=1), "rb") as file, Store(self.path) as store:
            return file.read(), store.data_size


class Answers(WithoutCheck):
    def test_documents_of_any_number_are_those_of_a_checked_store(self):
        order = random.Random(1)
        for checked, store in self.pairs():
            numbers = [order.randrange(-len(checked), len(checked)) for _ in range(300 if len(checked) else 0)]
            for number in numbers:
                self.assertEqual(answer(lambda: store[number]), answer(lambda: checked[number]))
                self.assertEqual(answer(lambda: bytes(store.view(number))), answer(lambda: checked[number]))
            self.assertEqual(answer(lambda: store.get_many(numbers)), answer(lambda: checked.get_many(numbers)))

    def test_documents_in_sequence_are_those_of_a_checked_store(self):
        for checked, store in self.pairs():
            self.assertEqual(len(store), len(checked))
            for numbers in [range(len(store)), reversed(range(len(store)))]:
                for number in numbers:
                    self.assertEqual(answer(lambda: store[number]), answer(lambda: checked[number]))
            for damaged in ["raise", "skip", "none"]:
                wanted = answer(lambda: list(checked.iter(damaged=damaged)))
                self.assertEqual(answer(lambda: list(store.iter(damaged=damaged))), wanted)
            self.assertEqual(answer(lambda: list(store)), answer(lambda: list(checked)))

    def test_slices_are_those_of_a_checked_store(self):
        for checked, store in self.pairs():
            for cut in [slice(None), slice(5, 300), slice(-3, None), slice(9000, None, -7), slice(1, None, 100)]:
                self.assertEqual(answer(lambda: store[cut]), answer(lambda: checked[cut]))

    def test_numbers_past_the_ends_are_refused(self):
        for checked, store in self.pairs():
            for number in [len(store), len(store) + 1, -len(store) - 1, 2**32, -(2**40)]:
                for call in [store.__getitem__, store.view, lambda number: store.get_many([number])]:
                    self.assertEqual(answer(lambda: call(number)), answer(lambda: checked[number]))
                with self.assertRaises(refusals.NoDocument):
                    store[number]

    def test_facts_are_those_of_a_checked_store_without_the_blocks(self):
        for checked, store in self.pairs():
            self.assertEqual(
                (store.size, store.data_size, store.version, store.period, store.path, repr(store)),
                (checked.size, checked.data_size, checked.version, checked.period, checked.path, repr(checked)),
            )
            self.assertIsNone(store.num_blocks)
            self.assertEqual(answer(store.verify), answer(checked.verify))

    def test_bytes_are_a_store(self):
        content, _ = self.many_blocks()
        for file, documents in [(FILE, DOCUMENTS), (content, MANY[:1500])]:
            with Store(bytearray(file), check=False) as store:
                self.assertEqual((list(store), store[:], store[7]), (documents, documents, documents[7]))

    def test_it_is_pickled_as_it_was_opened(self):
        for store in [Store(self.written(), check=False), Store(FILE, check=False)]:
            with store, pickle.loads(pickle.dumps(store)) as other:
                self.assertEqual((type(other), list(other), other.num_blocks), (Store, DOCUMENTS, None))

    def test_stores_that_are_given_by_paths_are_opened_so(self):
        paths = [self.written(), Store(FILE)]
        with Stores(paths, check=False) as stores:
            self.assertEqual([store.num_blocks for store in stores.stores], [None, 13])
            self.assertEqual(list(stores), DOCUMENTS * 2)

    def test_a_writer_takes_its_documents(self):
        content, _ = self.many_blocks()
        with Store(content, check=False) as store, Writer(self.path, replace=True) as writer:
            writer.stack(store)
        with Store(self.path) as store:
            self.assertEqual((list(store), store.num_blocks), (MANY[:1500], 1500))

    def test_a_closed_store_is_refused_by_name(self):
        content, _ = self.many_blocks()
        store = Store(content, check=False)
        documents = iter(store)
        next(documents)
        store.close()
        for call in [lambda: store[0], lambda: store[:], lambda: next(documents), store.verify, lambda: store.version]:
            with self.assertRaises(refusals.Closed):
                call()

    def test_threads_share_a_store(self):
        wrong = []
        content, _ = self.many_blocks()
        with Store(content, check=False) as store:

            def read(seed):
                order = random.Random(seed)
                for number in order.choices(range(1500), k=2000):
                    if store[number] != MANY[number] or store[number:number + 3] != MANY[number:min(number + 3, 1500)]:
                        wrong.append(number)
                if list(store) != MANY[:1500] or store.get_many(range(1500)) != MANY[:1500]:
                    wrong.append(seed)

            threads = [threading.Thread(target=read, args=(seed,)) for seed in range(8)]
            for thread in threads:
                thread.start()
            for thread in threads:
                thread.join()
        self.assertEqual(wrong, [])


class Damage(WithoutCheck):
    def read(self, content):
        """Opens bytes and reads some documents, which lie in the bytes. Returns whether they were opened."""
        try:
            store = Store(content, check=False)
        except refusals.Refused:
            return False
        with store:
            numbers = range(0, len(store), len(store) // 5 + 1)
            calls = [lambda number=number: [store[number]] for number in numbers]
            calls += [lambda: store[:9], lambda: store[1:9:3], lambda: store.get_many(numbers)]
            calls += [lambda: list(islice(store, 9))]
            for call in calls:
                try:
                    documents = call()
                except DAMAGE:
                    continue
                self.assertTrue(all(document in content for document in documents))
            with self.assertRaises(refusals.NoDocument):
                store[len(store)]
        return True

    def test_any_changed_byte_is_safe(self):
        content, index = self.many_blocks()
        for file, first in [(FILE, 0), (content, index)]:
            opened = 0
            for at in range(first, len(file)):
                for byte in {0x00, 0x80, 0xff, file[at] ^ 1}:
                    opened += self.read(file[:at] + bytes([byte]) + file[at + 1:])
            self.assertGreater(opened, 0)

    def test_cut_files_are_refused(self):
        content, _ = self.many_blocks()
        for file in [FILE, content]:
            for cut in range(len(file)):
                with self.assertRaises(refusals.ShortFile if cut < 28 else refusals.Refused):
                    Store(file[:cut], check=False)

    def test_a_damaged_index_is_met_where_it_is_read(self):
        content, _ = self.many_blocks()
        # The last byte of the index, in the last run of its lowest layer.
        content = content[:-29] + b"\x00" + content[-28:]
        with self.assertRaises(refusals.BadIndex):
            Store(content)
        with Store(content, check=False) as store:
            self.assertEqual(store[:1490], MANY[:1490])
            for call in [lambda: store[1499], lambda: store[-1:], lambda: store.get_many([0, 1499])]:
                self.assertEqual(answer(call), (refusals.BadIndex, 1499))
            for damaged in ["raise", "skip", "none"]:
                with self.assertRaises(refusals.BadIndex):
                    list(store.iter(damaged=damaged))
            with self.assertRaises(refusals.BadIndex):
                store.verify()

    def test_errors_name_the_file(self):
        self.written(b"x" * 100)
        with self.assertRaises(refusals.BadVersion) as caught:
            Store(self.path, check=False)
        self.assertEqual(caught.exception.path, self.path)
        os.remove(self.path)
        with self.assertRaises(FileNotFoundError):
            Store(self.path, check=False)


if __name__ == "__main__":
    unittest.main()
