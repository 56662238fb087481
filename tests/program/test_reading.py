"""`get` and `cat`: documents by their numbers, and all but some; their numbers, and JSON."""

import base64
import json
import os
import select
import subprocess

from harness import ProgramCase, numbers
from program.texts import LINES, NUMBERS


class Get(ProgramCase):
    def setUp(self):
        super().setUp()
        self.pack("a.store", NUMBERS)

    def test_numbers_and_ranges_are_got_in_their_order(self):
        for words, wanted in (
            (("7", "0..3", "19999.."), b"8\n1\n2\n3\n20000\n"),
            (("..3",), b"1\n2\n3\n"),
            (("20000..", "5..5"), b""),
        ):
            with self.subTest(words):
                self.assertEqual(self.program.gives("get", "a.store", *words), wanted)

    def test_a_document_that_is_not_there_is_refused(self):
        reason = "a.store: no document 20000; the store has 20000, numbered from 0"
        self.program.fails(1, reason, "get", "a.store", "20000")
        self.program.fails(1, "no document 20000", "get", "a.store", "19999..20001")

    def test_a_number_that_no_store_has_is_refused_as_one_that_this_store_lacks(self):
        for word in ("20001", "4294967294", "4294967295", "18446744073709551614"):
            self.program.fails(1, f"a.store: no document {word}", "get", "a.store", word)

    def test_a_range_that_ends_before_it_begins_is_refused(self):
        self.program.fails(2, "'5..3' ends before it begins", "get", "a.store", "0", "5..3")

    def test_a_word_that_is_no_number_is_refused(self):
        self.program.fails(2, "'seven' is not a number or a range", "get", "a.store", "seven")
        self.program.fails(2, "is not a number or a range", "get", "a.store", "3..x")


class GetListed(ProgramCase):
    """`get FILE -`: the numbers come from the standard input."""

    def setUp(self):
        super().setUp()
        self.pack("a.store", NUMBERS)

    def test_numbers_and_ranges_are_on_lines(self):
        given = self.program.gives("get", "a.store", "-", input=b"7\n0..3\n\n 19999.. \n5")
        self.assertEqual(given, b"8\n1\n2\n3\n20000\n6\n")
        self.assertEqual(self.program.gives("get", "a.store", "-", input=b""), b"")

    def test_many_numbers_are_got(self):
        places = b"".join(b"%d\n" % number for number in range(19_999, -1, -1))
        wanted = b"".join(b"%d\n" % number for number in range(20_000, 0, -1))
        self.assert_same(self.program.gives("get", "a.store", "-", input=places), wanted, "documents")

    def test_a_document_comes_before_the_next_number_is_given(self):
        command = [self.program.path, "get", "a.store", "-"]
        how = {"stdin": subprocess.PIPE, "stdout": subprocess.PIPE}
        with subprocess.Popen(command, cwd=self.folder, **how) as running:
            for number in (3, 19_999, 0):
                os.write(running.stdin.fileno(), b"%d\n" % number)
                self.assertTrue(select.select([running.stdout], [], [], 60)[0], "no document came")
                self.assertEqual(os.read(running.stdout.fileno(), 100), b"%d\n" % (number + 1))
            running.stdin.close()
        self.assertEqual(running.returncode, 0)

    def test_wrong_lines_are_refused_after_the_documents_before_them(self):
        done = self.program.fails(1, "a.store: no document 20000", "get", "a.store", "-", input=b"0\n20000\n1\n")
        self.assertEqual(done.stdout, b"1\n")

    def test_a_wrong_line_is_told_by_its_number(self):
        for lines, said in (
            (b"x\n", "standard input: line 1: 'x' is not a number"),
            (b"0\n\n3..x\n1\n", "standard input: line 3: '3..x' is not a number"),
            (b"0\n1\n5..3\n", "standard input: line 3: '5..3' ends before it begins"),
            (b"0\n\xff\n", "standard input: line 2: it is not UTF-8"),
        ):
            with self.subTest(said):
                self.program.fails(1, said, "get", "a.store", "-", input=lines)

    def test_a_dash_is_alone(self):
        self.program.fails(2, "'-' is not a number", "get", "a.store", "0", "-")


class Forms(ProgramCase):
    """Documents with their numbers, and as JSON."""

    def setUp(self):
        super().setUp()
        self.pack("a.store", LINES)

    def test_numbers_are_before_the_documents(self):
        self.assert_documents("a.store", b"0\tone\n1\t\n2\tthree\n", "--number")
        self.assert_documents("a.store", b"0\tone\n2\tthree\n", "--number", "--without", "1")
        self.assert_documents("a.store", b"2\tthree\n", "--number", "--without", "0..2")
        self.assert_documents("a.store", b"0\tone\x002\tthree\0", "--number", "--without", "1", "--framing", "nul")
        self.assertEqual(self.program.gives("get", "--number", "a.store", "2", "0"), b"2\tthree\n0\tone\n")

    def test_numbers_of_many_documents_are_their_places(self):
        self.pack("b.store", numbers(3000), "--block-size", "100")
        given = self.cat("b.store", "--number", "--without", "1..3,7,2990..")
        wanted = [n for n in range(2990) if n not in (1, 2, 7)]
        self.assert_same(given, b"".join(b"%d\t%d\n" % (n, n + 1) for n in wanted), "documents")

    def test_numbers_have_no_place_among_lengths(self):
        reason = "'--number' has no place in this framing: 'lengths'"
        self.program.fails(2, reason, "cat", "--number", "--framing", "lengths", "a.store")

    def test_json_has_text_or_base64(self):
        documents = [b"plain", b'"quoted" \\ \n\t\0\x1f', "Wörter 書 😀".encode(), b"", b"\xff\xfe", b"a\xc3"]
        self.pack("b.store", b"".join(len(d).to_bytes(4, "little") + d for d in documents), "--framing", "lengths")
        lines = self.cat("b.store", "--json").splitlines()
        self.assertEqual(self.program.gives("get", "--json", "b.store", "0..").splitlines(), lines)
        for number, (line, document) in enumerate(zip(map(json.loads, lines), documents, strict=True)):
            with self.subTest(document):
                found = line["text"].encode() if "text" in line else base64.b64decode(line["base64"])
                self.assertEqual((line["id"], found, len(line)), (number, document, 2))

    def test_json_goes_with_no_framing_and_no_numbers(self):
        for words in (["--framing", "nul"], ["--number"]):
            done = self.program.run("cat", "--json", *words, "a.store")
            self.assertEqual((done.returncode, done.stdout), (2, b""), done.stderr)


class Cat(ProgramCase):
    def setUp(self):
        super().setUp()
        self.pack("a.store", NUMBERS)

    def test_documents_are_left_out(self):
        for what, words, wanted in (
            ("by one option", ["0,2..19998"], b"2\n19999\n20000\n"),
            ("by two options", ["0", "2..19998"], b"2\n19999\n20000\n"),
            ("in any order, some twice", ["9..19998,0", "1..3,2..9", "5"], numbers(20_000, 19_999)),
            ("a range without documents", ["3..19998,3..3"], numbers(3) + numbers(20_000, 19_999)),
        ):
            with self.subTest(what):
                options = [word for ids in words for word in ("--without", ids)]
                self.assert_documents("a.store", wanted, *options)

    def test_a_document_that_is_not_there_cannot_be_left_out(self):
        self.program.fails(1, "no document 20000", "cat", "a.store", "--without", "20000")
        self.program.fails(1, "no document 4294967295", "cat", "a.store", "--without", "4294967295")

    def test_a_range_that_ends_before_it_begins_leaves_nothing_out_unnoticed(self):
        self.program.fails(2, "'5..3' ends before it begins", "cat", "a.store", "--without", "0,5..3")
        words = ["merge", "b.store", "a.store", "--without", "a.store=5..3"]
        self.program.fails(2, "'5..3' ends before it begins", *words)
        self.assert_missing("b.store")

    def test_a_word_that_is_no_number_cannot_be_left_out(self):
        self.program.fails(2, "'x' is not a number", "cat", "a.store", "--without", "1,x")
