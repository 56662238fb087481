"""`merge`: stores one after the other, and all documents of them but some."""

import resource

from harness import ProgramCase, limited, numbers
from program.texts import LINES, NUMBERS


class Merge(ProgramCase):
    def setUp(self):
        super().setUp()
        self.pack("a.store", LINES)
        self.pack("numbers.store", NUMBERS)

    def merge(self, out, *words):
        self.program.gives("merge", "--replace", out, *words)

    def test_stores_come_in_order(self):
        self.pack("small.store", NUMBERS, "--block-size", "100", "--period", "3")
        self.merge("all.store", "numbers.store", "a.store", "small.store")
        self.assert_documents("all.store", NUMBERS + LINES + NUMBERS)

    def test_documents_are_left_out(self):
        for what, inputs, ids, wanted in (
            ("of two inputs", ["a.store", "numbers.store"],
             ["a.store=0", "numbers.store=1..20000"], b"\nthree\n1\n"),
            ("of one input by two options", ["numbers.store"],
             ["numbers.store=0", "numbers.store=2..19998,1"], numbers(20_000, 19_999)),
            ("of two inputs, of one by two options", ["a.store", "numbers.store"],
             ["a.store=0", "numbers.store=1..", "a.store=2"], b"\n1\n"),
        ):
            with self.subTest(what):
                self.merge("less.store", *inputs, *(word for one in ids for word in ("--without", one)))
                self.assert_documents("less.store", wanted)

    def test_a_store_may_come_twice(self):
        self.merge("all.store", "a.store", "a.store")
        self.assert_documents("all.store", LINES * 2)

    def test_more_stores_are_merged_than_files_may_be_open(self):
        names = [f"{number}.store" for number in range(100, 201)]
        for name in names:
            self.pack(name, name.encode() + b"\n")
        limit = limited(resource.RLIMIT_NOFILE, 80)
        self.program.gives("merge", "all.store", *names, preexec_fn=limit)
        self.assert_documents("all.store", "".join(f"{name}\n" for name in names).encode())

    def test_an_option_for_no_input_is_refused(self):
        reason = "--without 'c.store=1': none of the inputs is named 'c.store'"
        for words in (["--without", "c.store=1"], ["--without", "a.store=1", "--without", "c.store=1"]):
            with self.subTest(words):
                self.program.fails(2, reason, "merge", "x.store", "a.store", *words)
                self.assert_missing("x.store")

    def test_an_option_without_documents_is_refused(self):
        reason = "--without 'a.store': it must have the form INPUT=IDS"
        self.program.fails(2, reason, "merge", "x.store", "a.store", "--without", "a.store")

    def test_a_document_that_is_not_there_cannot_be_left_out(self):
        self.program.fails(1, "a.store: no document 9", "merge", "x.store", "a.store", "--without", "a.store=9")

    def test_a_missing_input_is_reported(self):
        self.program.fails(3, "gone.store: No such file", "merge", "x.store", "a.store", "gone.store")
        self.assert_missing("x.store")
