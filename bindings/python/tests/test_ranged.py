"""A store that is read by ranges: what it gives, and which requests it makes."""

import http.server
import os
import re
import runpy
import subprocess
import sys
import tempfile
import threading
import unittest

from sparse import end_of
from test_sequence import DAMAGED, damaged
from words import DOCUMENTS, EMPTY, FILE
from zevkhadun import RangedStore, Store, Writer, refusals


class Elsewhere:
    """A file that is read by ranges, and keeps a list of the requests."""

    def __init__(self, content):
        self.content = content
        self.requests = []

    def __call__(self, start, length):
        self.requests.append((start, length))
        if not 0 <= start <= start + length <= len(self.content):
            raise AssertionError(f"a request of {length} bytes at {start}")
        return self.content[start:start + length]

    def taken(self):
        """The requests since the last call."""
        requests, self.requests = self.requests, []
        return requests

    def open(self, **options):
        return RangedStore(self, len(self.content), **options)


class Server(http.server.BaseHTTPRequestHandler):
    """A web server with one file, of which it sends ranges."""

    content, etag = b"", '"1"'

    def answer(self, status, part):
        self.send_response(status)
        self.send_header("Content-Length", str(len(part)))
        self.send_header("ETag", self.etag)
        self.end_headers()
        return part

    def do_HEAD(self):
        self.answer(200, self.content)

    def do_GET(self):
        first, last = map(int, re.fullmatch(r"bytes=(\d+)-(\d+)", self.headers["Range"]).groups())
        self.wfile.write(self.answer(206, self.content[first:last + 1]))

    def log_message(self, *words):
        pass


class OverHttp(unittest.TestCase):
    """The example that reads a store on a web server."""

    def setUp(self):
        self.handler = type("Handler", (Server,), {"content": FILE})
        server = http.server.ThreadingHTTPServer(("127.0.0.1", 0), self.handler)
        thread = threading.Thread(target=server.serve_forever)
        thread.start()
        self.addCleanup(server.server_close)
        self.addCleanup(thread.join)
        self.addCleanup(server.shutdown)
        self.url = f"http://127.0.0.1:{server.server_port}/a.store"
        self.example = runpy.run_path(os.path.join(os.path.dirname(__file__), "..", "examples", "over_http.py"))

    def test_documents_are_read(self):
        file = self.example["WebFile"](self.url)
        with RangedStore(file.read, file.size, version=file.version) as store:
            self.assertEqual(list(store), DOCUMENTS)
        command = [sys.executable, self.example["__file__"], self.url, "7", "-1"]
        printed = subprocess.run(command, capture_output=True, timeout=60, check=True)
        self.assertEqual(printed.stdout, DOCUMENTS[7] + b"\n" + DOCUMENTS[-1] + b"\n")

    def test_a_file_that_is_replaced_is_an_error(self):
        file = self.example["WebFile"](self.url)
        with RangedStore(file.read, file.size, tail=100, cache=0, version=file.version) as store:
            self.assertEqual(store[7], DOCUMENTS[7])
            self.handler.etag = '"2"'
            wrong = []

            def read():
                try:
                    store[7]
                except refusals.Changed:
                    wrong.append(1)

            threads = [threading.Thread(target=read) for _ in range(3)]
            for thread in threads:
                thread.start()
            for thread in threads:
                thread.join()
            self.assertEqual(len(wrong), 3)
        with self.assertRaises(refusals.Changed):
            RangedStore(file.read, file.size, version=iter([1, 2]).__next__)


class Ranged(unittest.TestCase):
    def many(self, count=3000, length=100):
        """A file of blocks of about 1000 bytes, and its documents."""
        documents = [b"%d." % number * (length // 5) for number in range(count)]
        with tempfile.TemporaryDirectory() as folder:
            path = os.path.join(folder, "a.store")
            with Writer(path, block_size=1000) as writer:
                writer.extend(documents)
            with open(path, "rb") as file:
                return Elsewhere(file.read()), documents

    def test_it_gives_what_a_store_gives(self):
        for content in [FILE, EMPTY]:
            for tail in [1, 28, 40, len(content), 1 << 20]:
                with Elsewhere(content).open(tail=tail, cache=200, request=300) as store, Store(content) as wanted:
                    self.assertEqual((len(store), list(store)), (len(wanted), list(wanted)))
                    self.assertEqual([store[number] for number in range(-len(store), len(store))], list(wanted) * 2)
                    self.assertEqual(store[::-3], wanted[::-3])
                    self.assertEqual(store.get_many(range(len(store))), list(wanted))

    def test_read_may_use_the_memory_of_its_result_again(self):
        file, documents = self.many()
        buffer = bytearray(len(file.content))

        def read(start, length):
            buffer[:length] = file.content[start:start + length]
            return memoryview(buffer)[:length]

        for tail in [28, 1 << 20]:
            with RangedStore(read, len(file.content), tail=tail, cache=0) as store:
                self.assertEqual([store[number] for number in range(0, 3000, 97)], documents[::97])
                self.assertEqual(list(store), documents)

    def test_one_request_opens_a_short_index_and_two_a_long_one(self):
        file, documents = self.many()
        index = len(file.content) - Store(file.content).data_size
        for tail in [28, index - 1]:
            self.assertEqual(len(file.open(tail=tail)), len(documents))
            self.assertEqual(file.taken(), [(len(file.content) - length, length) for length in (tail, index)])
        for tail in [index, 1 << 20]:
            self.assertEqual(len(file.open(tail=tail)), len(documents))
            self.assertEqual(len(file.taken()), 1)

    def test_a_get_takes_one_request_and_none_for_a_block_that_is_cached(self):
        file, documents = self.many()
        store = file.open()
        file.taken()
        self.assertEqual(store[1000], documents[1000])
        first, end, start, length = store.block_of(1000)
        self.assertEqual(file.taken(), [(start, length)])
        self.assertEqual([store[number] for number in range(first, end)], documents[first:end])
        self.assertEqual(file.taken(), [])

    def test_neighbouring_blocks_take_one_request(self):
        file, documents = self.many()
        store = file.open()
        file.taken()
        self.assertEqual(store[100:200], documents[100:200])
        self.assertEqual(len(file.taken()), 1)
        self.assertEqual(store.get_many([2000, 500, 2008, 501, 2000]), [
            documents[number] for number in [2000, 500, 2008, 501, 2000]
        ])
        self.assertEqual(len(file.taken()), 2)
        self.assertEqual(store[100:200], documents[100:200])
        self.assertEqual(file.taken(), [])

    def test_an_iteration_asks_for_many_blocks_at_once(self):
        file, documents = self.many()
        store = file.open(request=50_000, cache=0)
        file.taken()
        self.assertEqual(list(store), documents)
        requests = file.taken()
        self.assertEqual(len(requests), -(-Store(file.content).data_size // 50_000))
        self.assertLessEqual(max(length for _, length in requests), 50_000)

    def test_no_request_is_longer_than_asked_unless_a_block_is(self):
        file, documents = self.many()
        for request in [1, 2500, 10_000]:
            store = file.open(request=request)
            file.taken()
            self.assertEqual(store[:], documents)
            longest = max(length for _, length in file.taken())
            self.assertLessEqual(longest, max(request, 1300))

    def test_the_cache_has_a_limit_and_keeps_what_was_used_last(self):
        file, documents = self.many()
        store = file.open(cache=3000)
        for number in range(0, 3000, 10):
            store[number]
            self.assertLessEqual(store.cached, 3000)
        self.assertGreater(store.cached, 1500)
        store[0], store[1000], store[0], store[2000]
        file.taken()
        store[0]
        self.assertEqual(file.taken(), [])
        store[1500]
        self.assertEqual(len(file.taken()), 1)
        store.close()
        self.assertEqual(store.cached, 0)

    def test_a_block_that_is_longer_than_the_cache_is_not_kept(self):
        store = Elsewhere(FILE).open(cache=10)
        self.assertEqual((store[0], store[1], store.cached), (DOCUMENTS[0], DOCUMENTS[1], 0))

    def test_damage_is_found_in_what_is_read(self):
        with Elsewhere(damaged()).open(path="far/a.store") as store:
            self.assertEqual(store[5:], DOCUMENTS[5:])
            for call in [lambda: store[3], lambda: store[:9], lambda: list(store)]:
                with self.assertRaises(refusals.DamagedDocument) as caught:
                    call()
                self.assertEqual((caught.exception.document, caught.exception.path), (3, "far/a.store"))
            self.assertEqual(list(store.iter(damaged="skip")), DOCUMENTS[:3] + DOCUMENTS[5:])
            self.assertEqual(list(store.iter(damaged="none")), DAMAGED)
            with self.assertRaises(ValueError):
                store.iter(damaged="ignore")

    def test_files_that_are_no_store_are_refused_by_name(self):
        wrong = {b"": refusals.ShortFile, b"x" * 27: refusals.ShortFile, b"x" * 100: refusals.BadVersion}
        for content, kind in wrong.items():
            with self.assertRaises(kind) as caught:
                Elsewhere(content).open(path="far/a.store")
            self.assertIn("far/a.store", str(caught.exception))
        with self.assertRaises(refusals.BadIndex):
            Elsewhere(FILE[:1524] + b"\x00" * (len(FILE) - 1552) + FILE[-28:]).open()

    def test_what_read_raises_comes_through(self):
        file, documents = self.many()
        store = file.open()
        store._read = lambda start, length: b"short"
        with self.assertRaises(EOFError):
            store[0]
        store._read = lambda start, length: 1 // 0
        with self.assertRaises(ZeroDivisionError):
            store.get_many([1, 2000])
        store._read = file
        self.assertEqual(store[0], documents[0])

    def test_a_file_that_is_another_one_is_noticed_at_the_first_request(self):
        file, documents = self.many()
        versions = ["first"]
        store = file.open(version=lambda: versions[0], path="far/a.store", cache=5000)
        self.assertEqual(store[1000], documents[1000])
        other = Elsewhere(file.content)
        for content in [bytes(len(file.content)), b""]:
            store._read = lambda start, length: content[start:start + length]
            versions[0] = "second"
            for call in [lambda: store[0], lambda: store.get_many([1, 2]), lambda: list(store), lambda: store[5:7]]:
                with self.assertRaises(refusals.Changed) as caught:
                    call()
                self.assertEqual((caught.exception.path, caught.exception.number), ("far/a.store", 0))
                self.assertIn("far/a.store: The file is another one", str(caught.exception))
            self.assertEqual(store[1000], documents[1000])
            self.assertIsInstance(caught.exception, refusals.Refused)
        store._read, versions[0] = other, "first"
        self.assertEqual(store[0], documents[0])

    def test_a_file_that_changes_while_it_is_opened_is_noticed(self):
        file, _ = self.many()
        for answers in [[1, 2], [1, 1, 2]]:
            with self.assertRaises(refusals.Changed):
                file.open(version=iter(answers).__next__, tail=28)
        self.assertEqual(len(file.open(version=iter([1, 1, 1]).__next__, tail=28)), 3000)
        with self.assertRaises(ZeroDivisionError):
            file.open(version=lambda: 1 // 0)

    def test_numbers_that_no_document_has_and_a_closed_store_are_refused(self):
        store = Elsewhere(FILE).open()
        for number in [64, -65, 2**32, 2**70]:
            for call in [store.__getitem__, store.block_of, lambda number: store.get_many([0, number])]:
                with self.assertRaises(refusals.NoDocument):
                    call(number)
        with self.assertRaises(TypeError):
            store["a"]
        self.assertEqual(repr(store), "RangedStore(64 documents)")
        store.close()
        for call in [lambda: store[0], lambda: list(store), lambda: store.get_many([1])]:
            with self.assertRaises(refusals.Closed):
                call()

    def test_the_greatest_number_of_documents_is_counted(self):
        with Elsewhere(b"full" + end_of([(2**32 - 1, 4)])).open() as store:
            self.assertEqual(len(store), 2**32 - 1)

    def test_threads_share_a_store(self):
        file, documents = self.many()
        store = file.open(cache=5000)
        wrong = []

        def read(first):
            numbers = range(first, 3000, 37)
            if [store[number] for number in numbers] != [documents[number] for number in numbers]:
                wrong.append(first)

        threads = [threading.Thread(target=read, args=(first,)) for first in range(8)]
        for thread in threads:
            thread.start()
        for thread in threads:
            thread.join()
        self.assertEqual(wrong, [])


if __name__ == "__main__":
    unittest.main()
