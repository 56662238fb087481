"""Logs that a crash or a device changed: what is cut off, what is refused, and what a repair keeps."""

import json

from harness import changed
from program.log_case import FIRST, LogCase
from program.texts import LINES


class Broken(LogCase):
    """Bytes of a log that a crash or a device changed."""

    def setUp(self):
        super().setUp()
        self.append(LINES)
        self.program.gives("log", "seal", "events")
        self.append(b"four\n")
        self.append(b"five\n")
        self.tail = self.files()["tail.log"]

    def kill_writer(self):
        """Leaves the folder as a writer that was killed: without the mark of a good end."""
        (self.folder / "events/lock").unlink()

    def test_a_torn_end_is_not_read_and_is_cut_off_by_the_next_append(self):
        for cut in (1, 7, len(self.tail) - 17):
            torn = self.tail[:-cut]
            self.change("tail.log", torn)
            self.kill_writer()
            whole = LINES + (b"four\n" if cut < 20 else b"")
            self.assertEqual(self.records(), whole)
            self.assertEqual(self.files()["tail.log"], torn)
            done = self.program.run("log", "verify", "events")
            self.assertEqual(done.returncode, 1)
            said = r"^events/tail.log: torn: (0 records are|1 record is) whole; the \d+ bytes"
            self.assertRegex(done.stdout.decode(), said)
            done = self.program.run("log", "append", "events", input=b"new\n")
            said = r"^zevkhadun: events: \d+ bytes at the end of the tail were no whole batch, as after a crash; they"
            self.assertEqual(done.returncode, 0)
            self.assertRegex(done.stderr.decode(), said)
            self.assertEqual(self.records(), whole + b"new\n")
            self.program.gives("log", "verify", "-q", "events")

    def test_a_changed_byte_of_the_tail_is_found(self):
        for place in range(17, len(self.tail)):
            self.change("tail.log", changed(self.tail, place, bytes([self.tail[place] ^ 1])))
            self.assertEqual(self.program.run("log", "verify", "-q", "events").returncode, 1, f"byte {place}")

    def refuses(self, tail):
        """Checks that the log is refused as damaged by each command that writes the tail, and that nothing is changed,
        nor by one that drops the records of the only segment."""
        self.change("tail.log", tail)
        before = self.files()
        said = "events: the tail is damaged; get it from a copy, or see 'zevkhadun log repair --help'"
        for words in ("append events", "seal events", "compact events"):
            self.program.fails(1, said, "log", *words.split(), input=b"new\n")
        self.assertEqual(self.program.gives("log", "drop", "events", "--before", "3"), b"")
        self.assertEqual(self.files(), before)

    def test_the_end_of_a_tail_whose_writer_ended_well_is_damaged_where_it_is_not_whole(self):
        self.refuses(self.tail[:-1])
        self.refuses(self.tail + b"\1")
        self.refuses(changed(self.tail, len(self.tail) - 1, b"!"))

    def test_a_changed_batch_that_another_follows_is_damaged(self):
        for place in range(16, len(self.tail)):
            bad = changed(self.tail, place, bytes([self.tail[place] ^ 1]))
            self.change("tail.log", bad)
            self.kill_writer()
            first = place < 16 + (len(self.tail) - 16) // 2
            done = self.program.run("log", "append", "events")
            self.assertEqual(done.returncode, 1 if first else 0, f"byte {place}")
            self.assertEqual(self.files()["tail.log"] == bad, first, f"byte {place}")

    def test_what_is_before_the_damage_is_read_and_the_status_is_1(self):
        self.change("tail.log", changed(self.tail, 60, b"!"))
        said = "record 3 is damaged; 'zevkhadun log verify' says where"
        for words, printed in (("cat events", LINES), ("get events 0..", LINES), ("get events 0", b"one\n")):
            done = self.program.run("log", *words.split())
            self.assertEqual((done.returncode, done.stdout), (1, printed), words)
            self.assertEqual(done.stderr.decode(), f"zevkhadun: events: {said}\n")
        done = self.program.run("log", "stat", "--json", "events")
        self.assertEqual((done.returncode, json.loads(done.stdout)["next"]), (1, 3))
        done = self.program.run("log", "verify", "events")
        said = r"^events/tail.log: damaged: 0 records are whole; the \d+ bytes from byte 53 "
        self.assertRegex(done.stdout.decode(), said)

    def test_readers_say_so_where_the_end_of_a_tail_has_changed_whose_writer_ended_well(self):
        for bad in (self.tail[:-1], self.tail + b"\1"):
            self.change("tail.log", bad)
            whole = LINES + b"four\n" + (b"five\n" if len(bad) > len(self.tail) else b"")
            done = self.program.run("log", "cat", "events")
            self.assertEqual((done.returncode, done.stdout), (1, whole))
            self.assertIn("is damaged; 'zevkhadun log verify' says where", done.stderr.decode())
        self.kill_writer()
        self.assertEqual(self.records(), LINES + b"four\nfive\n")

    def test_a_repair_keeps_what_it_cuts_off(self):
        for number in range(2):
            bad = changed(self.tail, 60, b"!")
            self.refuses(bad)
            name = f"tail.cut.{number:020}"
            said = f"events: cut off {len(bad) - 53} bytes at the end of the tail; they are in events/{name}\n"
            self.assertEqual(self.program.gives("log", "repair", "events").decode(), said)
            self.assertEqual((self.files()["tail.log"], self.files()[name]), (bad[:53], bad[53:]))
            self.assertEqual(self.program.gives("log", "append", "events", "--number", input=b"new\n"), b"3\n")
            self.assertEqual(self.records(), LINES + b"new\n")
        said = "events: the tail is whole; nothing was cut off\n"
        self.assertEqual(self.program.gives("log", "repair", "events").decode(), said)
        self.program.gives("log", "verify", "-q", "events")

    def test_a_damaged_record_is_named(self):
        store = self.files()[FIRST]
        self.change(FIRST, changed(store, 8, b"\xff"))
        advice = "record 0 is damaged; 'zevkhadun log verify' says where"
        self.program.fails(1, f"events: {advice}", "log", "get", "events", "0")
        self.program.fails(1, f"events: {advice}", "log", "cat", "events")
        self.assertEqual(self.program.gives("log", "get", "events", "2.."), b"three\nfour\nfive\n")
        done = self.program.run("log", "verify", "events")
        self.assertEqual(done.returncode, 1)
        self.assertIn(f"events/{FIRST}: broken: block 0 at byte 0", done.stdout.decode())

    def test_a_segment_or_a_tail_that_is_none_is_found(self):
        self.program.gives("log", "seal", "events")
        sound = self.files()
        second = sorted(sound)[1]
        for name, content in ((FIRST, sound[FIRST][:20]), ("tail.log", b"x" + sound["tail.log"][1:]), (second, None)):
            with self.subTest(name):
                for each in sound:
                    self.change(each, sound[each])
                if content is None:
                    (self.folder / "events" / name).unlink()
                else:
                    self.change(name, content)
                said = "events: the log's files are broken; 'zevkhadun log verify' says where"
                self.program.fails(1, said, "log", "cat", "events")
                self.program.fails(1, said, "log", "append", "events", input=LINES)
                done = self.program.run("log", "verify", "events")
                self.assertEqual(done.returncode, 1)
                self.assertIn("broken", (done.stdout + done.stderr).decode())

    def test_a_lost_tail_is_named_and_an_empty_one_takes_its_place(self):
        (self.folder / "events" / "tail.log").unlink()
        said = "events: tail.log is missing; get it from a copy, or make an empty one as docs/LOG.md says\n"
        for words in ("append events", "cat events", "get events 0", "stat events", "verify -q events", "seal events",
                      "compact events", "drop events --before 1"):
            self.program.fails(1, said, "log", *words.split(), input=LINES)
        self.change("tail.log", b"zevklog\1" + (3).to_bytes(8, "little"))
        self.assertEqual(self.records(), LINES)
        self.assertEqual(self.append(b"new\n", "--number"), b"3\n")

    def test_a_folder_that_is_named_as_a_segment_is_named(self):
        name = "%020d.store" % 5
        (self.folder / "events" / name).mkdir()
        said = f"zevkhadun: events/{name}: not a plain file\n"
        for words in ("cat events", "get events 0", "stat events", "verify -q events", "seal events", "compact events"):
            self.program.fails(1, said, "log", *words.split())
        (self.folder / "events" / name).rmdir()
        self.assertEqual(self.records(), LINES + b"four\nfive\n")

    def test_a_changed_first_number_is_told_by_every_command(self):
        said = "events: the tail is damaged; get it from a copy, or see 'zevkhadun log repair --help'"
        commands = (
            "append events", "seal events", "compact events", "repair events", "cat events", "get events 3",
            "stat events",
        )
        for place in range(8, 16):
            self.change("tail.log", changed(self.tail, place, bytes([self.tail[place] ^ 1])))
            for words in commands:
                self.program.fails(1, said, "log", *words.split(), input=b"new\n")
            before = self.files()
            self.assertEqual(self.program.gives("log", "drop", "events", "--before", "3"), b"")
            self.assertEqual(self.files(), before)
            done = self.program.run("log", "verify", "-q", "events")
            told = "damaged: the number of its first record is not the one that its first batch names"
            self.assertEqual((done.returncode, done.stdout.decode()), (1, f"events/tail.log: {told}\n"))
            if place % 2:
                (self.folder / "events/lock").unlink(missing_ok=True)
        self.change("tail.log", self.tail)
        self.assertEqual(self.records(), LINES + b"four\nfive\n")


class Drops(LogCase):
    """Old segments are removed whatever the tail is, which stays as it is. Before one that is torn or damaged, or that
    a writer was killed in, the last segment stays."""

    def setUp(self):
        super().setUp()
        for number in range(3):
            self.append(b"%d\n" % number)
            self.program.gives("log", "seal", "events")
        self.append(b"3\n")
        self.append(b"4\n")
        self.sound = self.files()

    def drop_all(self):
        """Drops the records of all segments."""
        self.assertEqual(self.program.gives("log", "drop", "events", "--before", "9"), b"")

    def drop_with(self, tail):
        """Drops the records of all segments from the log with this tail."""
        for name, content in self.sound.items():
            self.change(name, content)
        self.change("tail.log", tail)
        self.drop_all()
        last = "%020d.store" % 2
        self.assertEqual(self.files(), {last: self.sound[last], "tail.log": tail})

    def test_before_a_torn_tail_the_last_segment_stays_until_the_tail_is_repaired(self):
        for cut in (1, 7, 30):
            # As after a writer that was killed: no mark says that it ended well.
            (self.folder / "events/lock").unlink()
            self.drop_with(self.sound["tail.log"][:-cut])
            # The end is torn still, and does not count as damaged.
            done = self.program.run("log", "append", "events", "--number", input=b"new\n")
            self.assertEqual((done.returncode, done.stdout), (0, b"4\n"), done.stderr)
            self.assertIn(b"were no whole batch, as after a crash", done.stderr)
            self.assertEqual(self.records(), b"2\n3\nnew\n")
            self.drop_all()
            self.assertEqual(list(self.files()), ["tail.log"])
            self.assertEqual(self.records(), b"3\nnew\n")

    def test_before_a_damaged_tail_the_last_segment_stays(self):
        tail = self.sound["tail.log"]
        for damaged in (tail[:-1], changed(tail, 20, b"!"), changed(tail, 8, b"\4"), b"x" + tail[1:], b""):
            self.drop_with(damaged)
            self.assertEqual(self.program.run("log", "verify", "-q", "events").returncode, 1, damaged[:24])

    def test_after_a_kill_the_last_segment_stays_until_a_writer_ends_well(self):
        writing = self.begin("--sync", "every", "--number")
        self.assertEqual(self.say(writing, b"5\n"), b"5\n")
        writing.kill()
        writing.wait()
        self.drop_with(self.files()["tail.log"])
        self.assertEqual(self.append(b"6\n", "--number"), b"6\n")
        self.drop_all()
        self.assertEqual(list(self.files()), ["tail.log"])
        self.assertEqual(self.records(), b"3\n4\n5\n6\n")

    def test_before_a_whole_tail_the_last_segment_goes_without_a_mark(self):
        (self.folder / "events/lock").unlink()
        self.drop_all()
        self.assertEqual(self.files(), {"tail.log": self.sound["tail.log"]})

    def test_on_a_terminal_the_records_are_counted_that_can_be_read(self):
        (self.folder / "events/lock").unlink()
        self.change("tail.log", self.sound["tail.log"][:-1])
        words = ("log", "drop", "events", "--before", "9")
        self.assertIn("dropped 2 records, numbers 0 to 1; of those before 9 stay 2: ", self.program.shows(*words))
        self.change("tail.log", b"x")
        self.assertEqual(self.program.shows(*words).strip(), "dropped 0 records")


class TenBatches(LogCase):
    """Each byte of a tail of ten batches, changed in turn: no sound batch is dropped, and no number given twice."""

    def setUp(self):
        super().setUp()
        for number in range(10):
            self.append(b"%d\n" % number)
        self.tail = self.files()["tail.log"]
        self.size = (len(self.tail) - 16) // 10

    def append_after_a_change(self, place):
        """Appends a record to the log whose tail has another byte at a place. Returns the status, and the tail then."""
        bad = changed(self.tail, place, bytes([self.tail[place] ^ 64]))
        self.change("tail.log", bad)
        status = self.program.run("log", "append", "events", input=b"new\n").returncode
        return status, self.files()["tail.log"] == bad

    def test_after_a_good_end_each_change_is_refused(self):
        for place in range(16, len(self.tail)):
            self.assertEqual(self.append_after_a_change(place), (1, True), f"byte {place}")

    def test_after_a_kill_each_change_is_refused_but_in_the_last_batch(self):
        last = len(self.tail) - self.size
        for place in range(16, len(self.tail)):
            (self.folder / "events/lock").unlink(missing_ok=True)
            refused = place < last
            self.assertEqual(self.append_after_a_change(place), (int(refused), refused), f"byte {place}")
            if not refused:
                self.assertEqual(self.records(), b"".join(b"%d\n" % number for number in range(9)) + b"new\n")
