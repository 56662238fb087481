"""The shape of a store: its blocks and its period."""

from harness import ProgramCase
from program.texts import NUMBERS


class Shape(ProgramCase):
    def test_many_lines_come_back(self):
        self.pack("a.store", NUMBERS)
        self.assert_documents("a.store", NUMBERS)

    def test_block_size_and_period_are_kept(self):
        self.pack("a.store", NUMBERS, "--block-size", "100", "--period", "3")
        self.assert_documents("a.store", NUMBERS)
        self.program.prints('"period":3', "stat", "--json", "a.store")
        self.program.prints('"largest_block":76,', "stat", "--json", "a.store")

    def test_1k_is_1024(self):
        kilo = self.pack("a.store", NUMBERS, "--block-size", "1K")
        self.assertEqual(self.pack("b.store", NUMBERS, "--block-size", "1024"), kilo)

    def test_a_wrong_block_size_is_refused(self):
        for word in ("K", "1X"):
            with self.subTest(word):
                self.program.fails(2, f"invalid size: '{word}'", "pack", "--block-size", word, "a.store")
                self.assertEqual(self.names(), [])

    def test_a_period_out_of_range_is_refused(self):
        for period in ("1", "65"):
            with self.subTest(period):
                done = self.program.run("pack", "--period", period, "a.store")
                self.assertEqual(done.returncode, 2, done.stderr)
                self.assertEqual(self.names(), [])
