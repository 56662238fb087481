"""Damaged documents are listed and left out: `cat --keep-going`, and `verify` with `--list` and `--json`."""

import json

from harness import ProgramCase, changed, numbers
from program.texts import LINES

# A block of three documents without a place: the number of its documents is 9.
NO_PLACE = b"\x09"


class Damaged(ProgramCase):
    """A store of twenty blocks of one document each, some of them damaged."""

    def setUp(self):
        super().setUp()
        self.whole = self.pack("whole.store", numbers(20), "--block-size", "0")
        bad = self.whole
        for place in (0, 4, 5, 6, 19):
            bad = changed(bad, self.table_of(place), b"\xff")
        self.write("bad.store", bad)
        self.saved = b"".join(b"%d\n" % n for n in range(1, 21) if n - 1 not in (0, 4, 5, 6, 19))

    def table_of(self, number):
        """Where the first byte of the table of a block is: a number, four bytes of a place, four of a count."""
        lengths = [len(str(n)) for n in range(1, 21)]
        return sum(length + 8 for length in lengths[:number]) + lengths[number]

    def test_the_others_are_printed_and_the_damaged_ones_are_named(self):
        done = self.program.run("cat", "--keep-going", "bad.store")
        self.assertEqual((done.returncode, done.stdout), (1, self.saved))
        line = "zevkhadun: bad.store: damaged documents were skipped: 0,4..7,19\n"
        self.assertEqual(done.stderr.decode(), line)

    def test_a_sound_store_is_printed_whole(self):
        self.assert_documents("whole.store", numbers(20), "--keep-going")

    def test_others_are_left_out_too(self):
        done = self.program.run("cat", "--keep-going", "--number", "bad.store", "--without", "1..3,6..18")
        self.assertEqual((done.returncode, done.stdout), (1, b"3\t4\n18\t19\n"))

    def test_the_list_may_be_left_out(self):
        done = self.program.run("verify", "--list", "bad.store")
        self.assertEqual((done.returncode, done.stdout), (1, b"0\n4..7\n19\n"))
        where = "bad.store: broken: block 0 at byte 0: its first document begins at byte"
        self.assertIn(where, done.stderr.decode())
        self.write("damaged.ids", done.stdout)
        self.assert_documents("bad.store", self.saved, "--without", "@damaged.ids")
        self.program.gives("merge", "saved.store", "bad.store", "--without", "bad.store=@damaged.ids")
        self.assert_documents("saved.store", self.saved)

    def test_the_list_of_a_sound_store_is_empty(self):
        self.assertEqual(self.program.gives("verify", "--list", "whole.store"), b"")

    def test_a_list_is_of_one_store(self):
        reason = "'--list' takes one store: 'bad.store'"
        self.program.fails(2, reason, "verify", "--list", "whole.store", "bad.store")

    def test_json_has_all_damaged_documents_of_each_store(self):
        self.write("cut.store", self.whole[:-30])
        done = self.program.run("verify", "--json", "whole.store", "bad.store", "cut.store")
        self.assertEqual((done.returncode, done.stderr), (1, b""))
        whole, bad, cut = map(json.loads, done.stdout.splitlines())
        self.assertEqual(whole, {
            "file": "whole.store", "sound": True, "fault": None, "documents": 20, "blocks": 20, "broken_blocks": 0,
            "damaged": 0, "damaged_documents": [],
        })
        self.assertEqual((bad["sound"], bad["damaged"], bad["broken_blocks"]), (False, 5, 5))
        self.assertEqual(bad["damaged_documents"], ["0", "4..7", "19"])
        self.assertIn("block 0 at byte 0", bad["fault"])
        self.assertEqual((cut["file"], cut["sound"]), ("cut.store", False))
        self.assertIn("footer: ", cut["fault"])

    def test_a_block_without_room_for_its_table_is_one_range(self):
        """The count of the one block is so large that no document of it has a place."""
        whole = self.pack("three.store", LINES)
        self.write("bad.store", changed(whole, 20, b"\xff\xff\xff\x7f"))
        done = self.program.run("verify", "--list", "bad.store")
        self.assertEqual(done.returncode, 1, done.stderr)
        self.assertTrue(done.stdout)

    def test_a_store_that_cannot_be_opened_is_not_printed(self):
        self.write("bad.store", changed(self.whole, -29, b"\0"))
        self.program.fails(1, "bad.store: the index is damaged", "cat", "--keep-going", "bad.store")
        done = self.program.run("verify", "--list", "bad.store")
        self.assertEqual((done.returncode, done.stdout), (1, b""))
        self.assertIn(b"bad.store: broken: index: ", done.stderr)
