"""A store that is read by the package."""

import os
import re
import threading
import unittest

import zevkhadun
from words import DOCUMENTS, EMPTY, FILE, InFile
from zevkhadun import REFUSALS, Refused, Store
from zevkhadun import refusals

TOP = os.path.join(os.path.dirname(__file__), "..", "..", "..")
HEADER = os.path.join(TOP, "bindings", "c", "include", "zevkhadun.h")


class InFolder(InFile):
    def test_documents_come_back_by_number_from_both_ends(self):
        with Store(self.written()) as store:
            self.assertEqual(len(store), len(DOCUMENTS))
            for number, wanted in enumerate(DOCUMENTS):
                self.assertEqual(store[number], wanted)
                self.assertEqual(store[number - len(DOCUMENTS)], wanted)

    def test_slices_are_those_of_a_list(self):
        with Store(self.written()) as store:
            for cut in [slice(3, 9), slice(-5, None), slice(None, None, 10), slice(9, 3), slice(20, 2, -3)]:
                self.assertEqual(store[cut], DOCUMENTS[cut])

    def test_an_iteration_gives_all_in_order(self):
        with Store(self.written()) as store:
            self.assertEqual(list(store), DOCUMENTS)
            self.assertIn(DOCUMENTS[61], store)

    def test_a_store_of_no_documents_is_a_store(self):
        with Store(self.written(EMPTY)) as store:
            self.assertEqual((len(store), list(store)), (0, []))

    def test_numbers_past_the_ends_are_refused(self):
        with Store(self.written()) as store:
            for number in [64, -65, 2**32, -(2**40)]:
                with self.assertRaises(refusals.NoDocument) as refused:
                    store[number]
                self.assertIsInstance(refused.exception, IndexError)

    def test_a_closed_store_is_refused_by_name(self):
        store = Store(self.written())
        store.close()
        store.close()
        with self.assertRaises(refusals.Closed):
            store[0]
        with self.assertRaises(refusals.Closed):
            list(store)

    def test_a_file_that_is_no_store_is_refused_by_name(self):
        wrong = {b"": refusals.ShortFile, FILE[:-1]: Refused, FILE[1:]: Refused, b"x" * 100: refusals.BadVersion}
        for content, refusal in wrong.items():
            with self.assertRaises(refusal):
                Store(self.written(content))

    def test_a_damaged_document_is_refused_and_others_are_read(self):
        content = bytearray(FILE)
        # The first block has five documents of 92 bytes, where each starts, and their count.
        self.assertEqual(FILE[112:116], b"\x05\x00\x00\x00")
        content[108:112] = b"\xff" * 4
        with Store(self.written(content)) as store:
            with self.assertRaises(refusals.DamagedDocument):
                store[4]
            self.assertEqual(store[5:], DOCUMENTS[5:])
            with self.assertRaises(refusals.DamagedDocument):
                list(store)

    def test_a_file_is_replaced_while_it_is_open(self):
        with Store(self.written()) as store:
            beside = self.path + ".new"
            with open(beside, "wb") as file:
                file.write(b"other")
            os.replace(beside, self.path)
            self.assertEqual(list(store), DOCUMENTS)

    def test_threads_share_a_store(self):
        wrong = []
        with Store(self.written()) as store:

            def read():
                for _ in range(50):
                    if list(store) != DOCUMENTS or any(store[i] != DOCUMENTS[i] for i in range(64)):
                        wrong.append(1)

            threads = [threading.Thread(target=read) for _ in range(8)]
            for thread in threads:
                thread.start()
            for thread in threads:
                thread.join()
        self.assertEqual(wrong, [])

    def test_a_store_is_closed_while_it_is_read(self):
        wrong = []
        store = Store(self.written())

        def read():
            try:
                while True:
                    if store[17] != DOCUMENTS[17]:
                        wrong.append(1)
            except refusals.Closed:
                pass

        threads = [threading.Thread(target=read) for _ in range(4)]
        for thread in threads:
            thread.start()
        store.close()
        for thread in threads:
            thread.join()
        self.assertEqual(wrong, [])

    def test_a_store_is_closed_in_the_middle_of_an_iteration(self):
        store = Store(self.written())
        documents = iter(store)
        self.assertEqual([next(documents), next(documents)], DOCUMENTS[:2])
        store.close()
        with self.assertRaises(refusals.Closed):
            next(documents)

    def test_each_refusal_has_the_name_and_the_number_of_the_header(self):
        with open(HEADER, encoding="utf-8") as header:
            pairs = re.findall(r"^ +ZEVK_([A-Z_]+) = (\d+)", header.read(), re.M)
        named = {int(number): name.title().replace("_", "") for name, number in pairs}
        self.assertEqual(named.pop(0), "Done")
        self.assertEqual({number: refusal.__name__ for number, refusal in REFUSALS.items()}, named)
        for number, refusal in REFUSALS.items():
            self.assertEqual(refusal.number, number)
            self.assertTrue(issubclass(refusal, Refused))

    def test_the_package_has_each_exception(self):
        classes = [value for value in vars(refusals).values() if isinstance(value, type) and issubclass(value, Refused)]
        self.assertTrue(set(REFUSALS.values()) < set(classes))
        for refusal in classes:
            self.assertIs(getattr(zevkhadun, refusal.__name__), refusal)
            self.assertIn(refusal.__name__, zevkhadun.__all__)


if __name__ == "__main__":
    unittest.main()
