"""A store where the collector of garbage runs."""

import gc
import os
import unittest
import weakref

from words import DOCUMENTS, FILE, InFile
from zevkhadun import Store, Writer, refusals
from zevkhadun._core import Packer


class Closes:
    """An object that closes a store when the collector of garbage finds it."""

    def __init__(self, store):
        self.store = store
        self.itself = self

    def __del__(self):
        self.store.close()


class Finalizers(InFile):
    def test_a_slice_is_whole_where_a_finalizer_closes_the_store_in_the_middle(self):
        """In CPython 3.11 the collector runs, and with it finalizers, where a list is made."""
        self.written()
        self.addCleanup(gc.set_threshold, *gc.get_threshold())
        for threshold in range(1, 41):
            for part in [slice(0, 60), slice(None, None, 3), slice(None, None, -1)]:
                # The collection frees the memory of earlier lists, which new ones would take without another one.
                found = []
                gc.set_threshold(0)
                gc.collect()
                store = Store(self.path)
                Closes(store)
                gc.set_threshold(threshold, 1, 1)
                try:
                    for _ in range(100):
                        found.append(store[part])
                except refusals.Closed:
                    pass
                gc.set_threshold(0)
                self.assertFalse(store.is_open, "no finalizer ran")
                self.assertTrue(all(documents == DOCUMENTS[part] for documents in found))


class Content(bytearray):
    """Bytes with attributes."""


class Cycles(InFile):
    """What holds itself in a circle is freed by the collector of garbage."""

    def assert_freed(self, make):
        """An object and what holds it go once nobody else holds them."""
        kept = make()
        freed = weakref.ref(kept)
        self.assertIs(freed(), kept)
        del kept
        gc.collect()
        self.assertIsNone(freed())

    def test_a_store_that_has_an_iteration_over_itself_is_freed(self):
        def make():
            store = Store(self.written())
            store.documents = iter(store)
            self.assertEqual(next(store.documents), DOCUMENTS[0])
            return store

        self.assert_freed(make)
        with open("/proc/self/maps", encoding="utf-8") as lines:
            self.assertFalse(any(self.path in line for line in lines))

    def test_a_store_of_bytes_that_have_it_is_freed(self):
        def make():
            content = Content(FILE)
            content.store = Store(content)
            content.view = content.store.view(1)
            return content.store

        self.assert_freed(make)

    def test_a_writer_whose_output_has_it_is_freed_and_discarded(self):
        def make():
            writer = Writer(self.path)
            writer._output.writer = writer
            return writer

        with self.assertWarns(ResourceWarning):
            self.assert_freed(make)
        self.assertEqual(os.listdir(os.path.dirname(self.path)), [])

    def test_a_packer_whose_output_has_it_is_freed(self):
        class Held:
            pass

        def make():
            held = Held()
            held.packer = Packer()
            held.packer._begin(held, 1)
            return held

        self.assert_freed(make)


if __name__ == "__main__":
    unittest.main()
