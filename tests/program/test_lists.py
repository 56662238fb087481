"""Lists in files: documents to leave out, and files to pack."""

from harness import ProgramCase, numbers
from program.texts import LINES, NUMBERS


class LeftOut(ProgramCase):
    def setUp(self):
        super().setUp()
        self.pack("a.store", NUMBERS)

    def test_a_list_leaves_documents_out(self):
        self.write("ids", b"0\n\n2..19998,1\r\n")
        self.assert_documents("a.store", numbers(20_000, 19_999), "--without", "@ids")
        self.assert_documents("a.store", b"20000\n", "--without", "@ids", "--without", "19998")

    def test_a_long_list_leaves_documents_out(self):
        self.write("ids", b"".join(b"%d\n" % number for number in range(1, 20_000, 2)))
        self.assert_documents("a.store", b"".join(b"%d\n" % n for n in range(1, 20_000, 2)), "--without", "@ids")

    def test_a_list_may_be_the_standard_input(self):
        given = self.program.gives("cat", "a.store", "--without", "@-", input=b"1..\n")
        self.assertEqual(given, b"1\n")

    def test_a_list_leaves_documents_out_of_one_input(self):
        self.pack("b.store", LINES)
        self.write("ids", b"0\n2..\n")
        self.program.gives(
            "merge", "c.store", "a.store", "b.store", "--without", "a.store=1..", "--without", "b.store=@ids"
        )
        self.assert_documents("c.store", b"1\n\n")

    def test_an_empty_list_leaves_nothing_out(self):
        self.write("ids", b"")
        self.assert_documents("a.store", NUMBERS, "--without", "@ids")

    def test_an_empty_word_is_refused(self):
        for ids in ("", ",", "\n", "1\n2"):
            with self.subTest(ids):
                done = self.program.run("cat", "a.store", "--without", ids)
                self.assertEqual((done.returncode, done.stdout), (2, b""), done.stderr)
                done = self.program.run("merge", "b.store", "a.store", "--without", f"a.store={ids}")
                self.assertEqual(done.returncode, 2, done.stderr)
                self.assert_missing("b.store")

    def test_a_list_that_is_not_there_is_reported(self):
        self.program.fails(3, "gone: No such file", "cat", "a.store", "--without", "@gone")
        self.program.fails(3, "gone: No such file", "merge", "b.store", "a.store", "--without", "a.store=@gone")
        self.assert_missing("b.store")

    def test_a_line_that_is_no_number_is_refused(self):
        self.write("ids", b"1\nx\n")
        self.program.fails(2, "'x' is not a number or a range", "cat", "a.store", "--without", "@ids")


class FilesFrom(ProgramCase):
    def setUp(self):
        super().setUp()
        self.write("one.txt", LINES)
        self.write("two words.txt", b"two\n")
        self.write("list", b"two words.txt\n\none.txt\n")

    def test_files_are_packed_in_the_order_of_the_list(self):
        self.program.gives("pack", "a.store", "--files-from", "list")
        self.assert_documents("a.store", b"two\n" + LINES)
        self.program.gives("pack", "--replace", "a.store", "one.txt", "--files-from", "list")
        self.assert_documents("a.store", LINES + b"two\n" + LINES)

    def test_a_list_may_be_the_standard_input(self):
        self.program.gives("pack", "a.store", "--files-from", "-", input=b"one.txt\none.txt\n")
        self.assert_documents("a.store", LINES * 2)

    def test_names_may_end_with_bytes_0(self):
        self.write("two\nlines.txt", b"three\n")
        self.write("list", b"two\nlines.txt\0\0one.txt")
        for command in (["pack", "a.store"], ["append", "a.store"]):
            self.program.gives(*command, "--files-from", "list", "-0")
        self.assert_documents("a.store", (b"three\n" + LINES) * 2)
        self.program.gives("log", "append", "events", "--files-from", "list", "--null")
        self.assertEqual(self.program.gives("log", "cat", "events"), b"three\n" + LINES)

    def test_an_empty_list_makes_an_empty_store(self):
        self.write("list", b"")
        self.program.gives("pack", "a.store", "--files-from", "list", input=LINES)
        self.assert_documents("a.store", b"")

    def test_listed_files_are_appended(self):
        self.pack("a.store", b"zero\n")
        self.program.gives("append", "a.store", "--files-from", "list")
        self.assert_documents("a.store", b"zero\ntwo\n" + LINES)

    def test_more_files_are_packed_than_a_command_line_has_room_for(self):
        names = [f"{'long' * 40}{number:06}" for number in range(20_000)]
        for name in names[:3]:
            self.write(name, name.encode())
        self.write("list", "".join(f"{names[number % 3]}\n" for number in range(20_000)).encode())
        self.program.gives("pack", "--framing", "files", "a.store", "--files-from", "list")
        self.program.prints('"documents":20000', "stat", "--json", "a.store")

    def test_a_file_that_is_not_there_is_reported(self):
        self.write("list", b"one.txt\ngone\n")
        self.program.fails(3, "gone: No such file", "pack", "a.store", "--files-from", "list")
        self.program.fails(3, "none: No such file", "pack", "a.store", "--files-from", "none")
        self.assert_missing("a.store")
