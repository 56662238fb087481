"""What the tests of writers share: a folder of their own, and stores in it."""

import os
import tempfile
import unittest

from zevkhadun import Store, Writer


class InFolder(unittest.TestCase):
    def setUp(self):
        folder = tempfile.TemporaryDirectory()
        self.addCleanup(folder.cleanup)
        self.folder = folder.name
        self.path = os.path.join(self.folder, "a.store")
        self.beside = self.path + ".part"

    def at(self, name):
        return os.path.join(self.folder, name)

    def content(self, name="a.store"):
        with open(self.at(name), "rb") as file:
            return file.read()

    def written(self, documents, name="a.store", **options):
        with Writer(self.at(name), replace=True, **options) as writer:
            numbers = [writer.put(document) for document in documents]
            self.assertEqual(numbers, list(range(len(documents))))
            self.assertEqual(len(writer), len(documents))
        return self.at(name)

    def stacked(self, name, *parts, **options):
        with Writer(self.at(name), replace=True, **options) as writer:
            for part in parts:
                with Store(self.at(part)) as store:
                    writer.stack(store)
        return self.content(name)

    def documents(self, name="a.store"):
        with Store(self.at(name)) as store:
            return list(store)
