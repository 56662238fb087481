"""`log compact` and `log drop`: segments of a log that are joined, and old ones that are removed."""

import json

from harness import changed, numbers
from program.log_case import FIRST, LogCase
from program.texts import LINES


class SegmentCase(LogCase):
    """A test with a log that has segments."""

    def segments(self) -> list[str]:
        """The names of the segments, in the order of their numbers."""
        return [name for name in self.files() if name.endswith(".store")]

    def seal(self, text: bytes) -> None:
        """Appends records, and seals them."""
        self.append(text)
        self.program.gives("log", "seal", "events")

    def compact(self, *words: str) -> None:
        """Joins segments."""
        self.assertEqual(self.program.gives("log", "compact", "events", *words), b"")

    def drop(self, number: int) -> None:
        """Removes the segments before a number."""
        self.assertEqual(self.program.gives("log", "drop", "events", "--before", str(number)), b"")

    def told(self, *words: str) -> str:
        """What a command says on a terminal."""
        return self.program.shows("log", *words, "events").replace("\r\n", "\n")

    def counts(self) -> dict:
        """What `log stat` counts."""
        return json.loads(self.program.gives("log", "stat", "--json", "events"))


class Seal(SegmentCase):
    def test_an_append_that_ends_well_seals_a_tail_of_a_megabyte(self):
        text = numbers(100_000)
        self.append(text)
        self.assertEqual(self.segments(), [])
        self.append(text)
        self.assertEqual((self.segments(), self.counts()["tail_bytes"]), ([FIRST], 16))
        self.assert_same(self.records(), text + text, "other records")

    def test_an_append_that_fails_seals_nothing(self):
        self.write("numbers.txt", numbers(200_000))
        self.append_fails(3, "No such file", "200000 records, numbers 0 to 199999", "numbers.txt", "missing.txt")
        self.assertEqual((self.segments(), self.counts()["records"]), ([], 200_000))


class Compact(SegmentCase):
    def test_a_million_records_become_the_store_that_merge_writes(self):
        text = numbers(1_000_000)
        self.append(text, "--seal-size", "1M")
        self.program.gives("log", "seal", "events")
        segments = self.segments()
        self.assertGreater(len(segments), 5)
        self.program.gives("merge", "-q", "merged.store", *(f"events/{name}" for name in segments))
        self.compact()
        self.assertEqual(self.segments(), [FIRST])
        self.assert_same(self.files()[FIRST], self.read("merged.store"), "not what merge writes")
        self.assert_same(self.records(), text, "other records")
        self.program.gives("log", "verify", "-q", "events")

    def test_small_segments_become_the_store_that_merge_writes(self):
        for i in range(5):
            self.seal(numbers(i * 10 + 9, i * 10))
        self.program.gives("merge", "-q", "merged.store", *(f"events/{name}" for name in self.segments()))
        self.append(b"new\n")
        self.compact()
        self.assertEqual(self.files()[FIRST], self.read("merged.store"))
        self.assertEqual(self.records(), numbers(49, 0) + b"new\n")
        self.assertEqual(self.append(b"next\n", "--number"), b"51\n")

    def test_segments_are_joined_up_to_the_size(self):
        # Each has a block of 10,004 bytes: 1000 records of 6 bytes, and 4 for each and for their number.
        text = b"".join(b"%06d\n" % i for i in range(8000))
        for i in range(8):
            self.seal(text[i * 7000:(i + 1) * 7000])
        self.compact("--size", "10005")
        self.assertEqual(len(self.segments()), 8)
        self.compact("--size", "30012")
        self.assertEqual(self.segments(), ["%020d.store" % first for first in (0, 3000, 6000)])
        self.assertEqual(self.records(), text)
        self.assertEqual(self.counts()["records"], 8000)
        self.compact("--size", "1M")
        self.assertEqual(self.segments(), [FIRST])
        self.assertEqual(self.records(), text)

    def test_a_joined_segment_is_not_made_in_memory(self):
        text = b"".join(b"%07d" % i * 1000 + b"\n" for i in range(10_000))
        self.append(text)
        self.program.gives("log", "seal", "events")
        self.assertGreater(len(self.segments()), 5)
        self.assert_ends_within(32 << 20, self.measured("log", "compact", "events"))
        self.assertEqual(self.segments(), [FIRST])
        self.assert_same(self.records(), text, "other records")

    def test_segments_that_cannot_be_joined_stay_as_they_are(self):
        self.seal(LINES)
        self.append(b"four\n")
        before = self.files()
        self.compact()
        self.assertEqual(self.files(), before)

    def test_segments_that_a_crash_left_beside_the_joined_one_are_removed(self):
        for i in range(3):
            self.seal(numbers(i * 10 + 9, i * 10))
        before = self.files()
        self.compact()
        joined = self.files()
        for name in list(before)[1:3]:
            self.change(name, before[name])
            self.assertEqual(self.records(), numbers(29, 0))
            self.program.gives("log", "verify", "-q", "events")
        self.compact("--size", "0")
        self.assertEqual(self.files(), joined)

    def test_a_damaged_record_of_a_small_segment_is_an_error_and_all_files_stay(self):
        self.seal(LINES)
        self.seal(numbers(9))
        self.change(FIRST, changed(self.files()[FIRST], 8, b"\xff"))
        before = self.files()
        said = "events: a record is damaged; 'zevkhadun log verify' says where\n"
        self.program.fails(1, said, "log", "compact", "events")
        self.assertEqual(self.files(), before)

    def test_a_damaged_record_of_a_large_segment_stays_one(self):
        self.seal(numbers(100_000, 0))
        self.seal(numbers(200_000, 100_001))
        self.change(FIRST, changed(self.files()[FIRST], 100_000, b"\xff" * 20_000))
        damaged = self.program.run("log", "verify", "events").stdout
        self.assertIn(b"damaged", damaged)
        self.compact()
        self.assertEqual(self.segments(), [FIRST])
        self.assertEqual(self.program.gives("log", "get", "events", "100001..", "0..100"),
                         numbers(200_000, 100_001) + numbers(99, 0))
        self.program.fails(1, "is damaged", "log", "cat", "events")


class Drop(SegmentCase):
    def setUp(self):
        super().setUp()
        for i in range(3):
            self.seal(numbers(i * 10 + 9, i * 10))
        self.append(numbers(34, 30))

    def test_segments_whose_records_all_come_before_are_removed(self):
        for number, first in ((0, 0), (9, 0), (10, 10), (19, 10), (29, 20), (30, 30), (1000, 30)):
            self.drop(number)
            self.assertEqual(self.records(), numbers(34, first), f"before {number}")
            counts = self.counts()
            self.assertEqual((counts["first"], counts["next"], counts["segments"]), (first, 35, 3 - first // 10))
        self.assertEqual(self.append(b"35\n", "--number"), b"35\n")

    def test_a_record_that_was_removed_is_no_record_of_the_log(self):
        self.drop(20)
        said = "events: no record 19; the log has the records 20 to 34\n"
        self.program.fails(1, said, "log", "get", "events", "19")
        self.assertEqual(self.program.gives("log", "get", "events", "20", "..21"), b"20\n20\n")

    def test_all_records_go_once_they_are_sealed(self):
        self.program.gives("log", "seal", "events")
        self.drop(35)
        self.assertEqual((self.records(), self.segments()), (b"", []))
        self.assertEqual(self.append(b"35\n", "--number"), b"35\n")

    def test_what_is_left_is_joined(self):
        self.drop(15)
        self.compact()
        self.assertEqual(self.segments(), ["%020d.store" % 10])
        self.assertEqual(self.records(), numbers(34, 10))


class Told(SegmentCase):
    """What commands that change segments say on a terminal, where nothing was done too."""

    def test_seal_says_which_records_are_in_which_segment(self):
        self.append(LINES)
        self.assertEqual(self.told("seal"), f"sealed 3 records, numbers 0 to 2, into {FIRST}\n")
        self.assertEqual(self.told("seal"), "sealed 0 records: the tail has none that is not sealed\n")
        self.append(b"four\n")
        self.assertEqual(self.told("seal"), "sealed 1 record, number 3, into 00000000000000000003.store\n")
        self.append(b"five\n")
        self.assertEqual(self.told("seal", "-q"), "")
        self.assertEqual(len(self.segments()), 3)

    def test_compact_says_how_many_segments_there_are(self):
        for i in range(3):
            self.seal(LINES)
        self.assertEqual(self.told("compact", "--size", "1"), "segments: 3 before, 3 now; none were joined\n")
        self.assertEqual(self.told("compact"), "segments: 3 before, 1 now\n")
        self.assertEqual(self.told("compact", "--quiet"), "")

    def test_drop_says_which_records_went_and_how_many_stay(self):
        for i in range(3):
            self.seal(LINES)
        self.append(LINES)
        stay = "a segment goes whole, and records of the tail go once they are sealed\n"
        self.assertEqual(self.told("drop", "--before", "0"), "dropped 0 records\n")
        self.assertEqual(self.told("drop", "--before", "2"), f"dropped 0 records; of those before 2 stay 2: {stay}")
        self.assertEqual(self.told("drop", "--before", "6"), "dropped 6 records, numbers 0 to 5\n")
        said = f"dropped 3 records, numbers 6 to 8; of those before 99 stay 3: {stay}"
        self.assertEqual(self.told("drop", "--before", "99"), said)
        self.assertEqual(self.told("drop", "-q", "--before", "99"), "")
