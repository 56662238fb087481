"""Many stores as one sequence."""

import os
import pickle
import tempfile
import unittest

from zevkhadun import NoDocument, RangedStore, Store, Stores, Writer, refusals

PARTS = [[b"a", b"b"], [], [b"c"], [b"d" * number for number in range(50)]]
ALL = [document for part in PARTS for document in part]


class ManyStores(unittest.TestCase):
    def setUp(self):
        folder = tempfile.TemporaryDirectory()
        self.addCleanup(folder.cleanup)
        self.paths = [os.path.join(folder.name, f"{number}.store") for number in range(len(PARTS))]
        for path, part in zip(self.paths, PARTS):
            with Writer(path, block_size=100) as writer:
                writer.extend(part)

    def test_they_are_one_sequence(self):
        with Stores(self.paths) as stores:
            self.assertEqual((len(stores), list(stores)), (len(ALL), ALL))
            self.assertEqual([stores[number] for number in range(len(ALL))], ALL)
            self.assertEqual([stores[number - len(ALL)] for number in range(len(ALL))], ALL)
            for cut in [slice(1, 9), slice(None, None, -7), slice(-3, None), slice(5, 5)]:
                self.assertEqual(stores[cut], ALL[cut])
            self.assertEqual(stores.get_many([5, -1, 0, 5, 2]), [ALL[5], ALL[-1], ALL[0], ALL[5], ALL[2]])
            self.assertEqual(list(reversed(stores)), ALL[::-1])
            self.assertEqual(repr(stores), f"Stores(4 stores, {len(ALL)} documents)")

    def test_a_document_is_found_by_its_store_and_number(self):
        with Stores(self.paths) as stores:
            for number, document in enumerate(ALL):
                store, at = stores.locate(number)
                self.assertEqual(PARTS[store][at], document)
            self.assertEqual(stores.locate(-1), (3, 49))

    def test_numbers_that_no_document_has_are_refused(self):
        with Stores(self.paths) as stores:
            for number in [len(ALL), -len(ALL) - 1, 2**70]:
                for call in [stores.__getitem__, stores.locate, lambda number: stores.get_many([number])]:
                    with self.assertRaises(NoDocument):
                        call(number)
            with self.assertRaises(TypeError):
                stores["a"]

    def test_stores_of_any_kind_are_one_sequence(self):
        with open(self.paths[3], "rb") as file:
            content = file.read()
        ranged = RangedStore(lambda start, length: content[start:start + length], len(content))
        with Stores([self.paths[0], Store(content), ranged]) as stores:
            self.assertEqual(list(stores), PARTS[0] + PARTS[3] + PARTS[3])
            self.assertEqual([len(store) for store in stores.stores], [2, 50, 50])

    def test_no_stores_have_no_documents(self):
        with Stores([]) as stores:
            self.assertEqual((len(stores), list(stores), stores[:], stores.get_many([])), (0, [], [], []))
            with self.assertRaises(NoDocument):
                stores[0]

    def test_one_that_is_not_a_store_closes_the_others(self):
        with open(self.paths[2], "wb") as file:
            file.write(b"no store")
        with self.assertRaises(refusals.ShortFile) as caught:
            Stores(self.paths)
        self.assertEqual(caught.exception.path, self.paths[2])
        with open("/proc/self/maps", encoding="utf-8") as lines:
            self.assertNotIn(self.paths[0], lines.read())

    def test_they_are_pickled_by_their_paths(self):
        with Stores(self.paths) as stores, pickle.loads(pickle.dumps(stores)) as others:
            self.assertEqual(list(others), ALL)

    def test_closed_stores_are_refused_by_name(self):
        stores = Stores(self.paths)
        stores.close()
        for call in [lambda: stores[0], lambda: list(stores), lambda: stores.get_many([1])]:
            with self.assertRaises(refusals.Closed):
                call()


if __name__ == "__main__":
    unittest.main()
