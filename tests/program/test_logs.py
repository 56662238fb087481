"""`log`: records in a folder, which are appended and read by their numbers."""

import json
import os
import shutil
import subprocess

from harness import numbers
from program.log_case import FIRST, LogCase
from program.texts import LINES


class Append(LogCase):
    def test_a_missing_or_empty_folder_becomes_a_log(self):
        self.append(LINES)
        self.assertEqual(self.records(), LINES)
        (self.folder / "empty").mkdir()
        self.program.gives("log", "append", "empty", input=b"")
        self.assertEqual(self.records(name="empty"), b"")

    def test_records_come_after_those_of_the_log(self):
        self.write("more.txt", b"four\nfive")
        self.append(LINES)
        self.program.gives("log", "append", "events/", "more.txt", "-", input=b"six\n")
        self.assertEqual(self.records(), LINES + b"four\nfive\nsix\n")

    def test_each_policy_keeps_all_records_and_prints_their_numbers(self):
        for policy in ("every", "batch", "end"):
            with self.subTest(policy):
                shutil.rmtree(self.folder / "events", ignore_errors=True)
                self.assertEqual(self.append(numbers(300), "--sync", policy, "--number"), numbers(299, 0))
                self.assertEqual(self.append(LINES, "--sync", policy, "--number"), b"300\n301\n302\n")
                self.assertEqual(self.records(), numbers(300) + LINES)

    def test_records_have_their_framing(self):
        texts = {"text": b"a\nb", "nul": b"a\nb\0\0", "lengths": b"\1\0\0\0a\0\0\0\0", "files": b"a\0\n"}
        for framing, text in texts.items():
            with self.subTest(framing):
                shutil.rmtree(self.folder / "events", ignore_errors=True)
                self.append(text, "--framing", framing)
                self.assertEqual(self.records("--framing", framing), text)

    def test_large_records_are_taken(self):
        large = b"x" * (3 << 20)
        for policy in ("every", "batch", "end"):
            self.append(b"a\n" + large + b"\nb\n", "--sync", policy)
        self.assertEqual(self.records(), (b"a\n" + large + b"\nb\n") * 3)

    def test_a_number_is_printed_before_more_input_is_waited_for(self):
        for policy in ("every", "batch"):
            with self.subTest(policy):
                count = len(self.records().splitlines()) if "events" in self.names() else 0
                writing = self.begin("--sync", policy, "--number")
                # The second line has not ended.
                self.assertEqual(self.say(writing, b"one\ntw"), b"%d\n" % count)
                self.assertEqual(self.say(writing, b"o\n"), b"%d\n" % (count + 1))
                self.assertEqual(writing.communicate(b"three", timeout=60), (b"%d\n" % (count + 2), b""))
        self.assertEqual(self.records(), b"one\ntwo\nthree\n" * 2)

    def test_nobody_has_to_read_the_numbers(self):
        writing = self.begin("--sync", "every", "--number")
        self.assertEqual(self.say(writing, b"one\n"), b"0\n")
        writing.stdout.close()
        writing.stdin.write(b"two\nthree\n")
        writing.stdin.close()
        self.assertEqual(writing.wait(timeout=60), 0)
        self.assertEqual(self.records(), b"one\ntwo\nthree\n")

    def test_numbers_that_can_not_be_printed_are_an_error_and_all_records_are_kept(self):
        with open("/dev/full", "wb") as full:
            reason = "standard output: No space left"
            self.append_fails(3, reason, "3 records, numbers 0 to 2", "--number", input=LINES, stdout=full)
        self.assertEqual(self.records(), LINES)

    def test_a_failed_input_leaves_the_records_before_it_and_says_which_they_are(self):
        self.write("one.txt", LINES)
        words = ("one.txt", "gone", "one.txt")
        self.append_fails(3, "gone: No such file", "3 records, numbers 0 to 2", *words)
        self.assertEqual(self.records(), LINES)
        self.append_fails(3, "gone: No such file", "0 records", *words, "--sync", "end", "-q")
        self.assertEqual(self.records(), LINES)
        cut = b"\4\0\0\0four\4\0\0\0fi"
        reason = "standard input: the input ends inside a document"
        self.append_fails(1, reason, "1 record, number 3", "-q", "--framing", "lengths", input=cut)
        self.assertEqual(self.records(), LINES + b"four\n")

    def test_progress_is_shown_on_a_terminal(self):
        self.write("one.txt", b"one\n")
        self.write("more.txt", numbers(200_000))
        self.assertIn("1 record, number 0, ", self.program.shows("log", "append", "events", "one.txt"))
        shown = self.program.shows("log", "append", "events", "more.txt")
        self.assertIn("200000 records, numbers 1 to 200000, ", shown)
        self.assertIn(" left ", shown)
        self.assertEqual(self.program.shows("log", "append", "-q", "events", "one.txt"), "")


class Expected(LogCase):
    """`--expect`: all records come in, or none."""

    def test_exactly_so_many_records_are_appended(self):
        self.append(LINES, "--expect", "3")
        self.append(b"", "--expect", "0")
        self.assertEqual(self.append(numbers(2), "--expect", "2", "--sync", "end", "--number"), b"3\n4\n")
        self.assertEqual(self.records(), LINES + numbers(2))

    def test_of_more_or_fewer_records_none_is_appended(self):
        self.append(b"old\n")
        before = self.files()
        for text, came in ((LINES, 3), (b"", 0), (numbers(300_000), 300_000)):
            for count in (came + 1, came - 1 if came else 2):
                said = f"events: {count} records were expected and {came} came; nothing was written"
                self.append_fails(1, said, "0 records", "--expect", str(count), input=text)
        self.assertEqual(self.files(), before)

    def test_records_are_not_on_the_disk_before_the_last_one_came(self):
        self.append(b"old\n")
        writing = self.begin("--expect", "2", "--number")
        writing.stdin.write(numbers(2))
        writing.stdin.flush()
        self.assertEqual(self.records(), b"old\n")
        self.assertEqual(writing.communicate(timeout=60), (b"1\n2\n", b""))

    def test_a_policy_that_acknowledges_before_the_end_is_refused(self):
        for policy in ("every", "batch"):
            said = f"'--expect' takes no other '--sync' than 'end': '{policy}'"
            self.program.fails(2, said, "log", "append", "events", "--expect", "3", "--sync", policy, input=LINES)
        self.assertEqual(self.names(), [])


class Segments(LogCase):
    def test_a_large_tail_becomes_a_store(self):
        self.append(numbers(200), "--seal-size", "500", "--sync", "every")
        names = [name for name in self.files() if name.endswith(".store")]
        self.assertGreater(len(names), 3)
        text = b"".join(self.cat(f"events/{name}") for name in names)
        self.assertEqual(self.records(), numbers(200))
        self.assertTrue(numbers(200).startswith(text))
        self.assertEqual(names[1], "%020d.store" % len(self.cat(f"events/{names[0]}").splitlines()))

    def test_two_syncs_leave_the_files_of_one(self):
        words = ("--sync", "every", "--seal-size", "500")
        self.append(numbers(200), *words)
        files = self.files()
        shutil.rmtree(self.folder / "events")
        self.append(numbers(200), *words, "--two-syncs")
        self.assertEqual(self.files(), files)

    def test_a_tail_that_is_replaced_is_sealed_past_a_mebibyte(self):
        self.write("numbers.txt", numbers(200_000))
        for words, sealed in ((), False), (("--two-syncs",), True):
            with self.subTest(words):
                shutil.rmtree(self.folder / "events", ignore_errors=True)
                # A tail of that size is sealed at the end of an append that ends well.
                names = ("numbers.txt", "missing.txt")
                self.append_fails(3, "No such file", "200000 records, numbers 0 to 199999", *words, *names)
                self.assertEqual(FIRST in self.files(), sealed)
                self.assertEqual(self.records(), numbers(200_000))

    def test_a_segment_is_what_pack_writes(self):
        self.append(numbers(5000))
        self.program.gives("log", "seal", "events")
        self.assertEqual(self.files()[FIRST], self.pack("a.store", numbers(5000)))
        self.assertEqual(self.records(), numbers(5000))

    def test_sealing_nothing_changes_nothing(self):
        self.append(LINES)
        self.program.gives("log", "seal", "events")
        sealed = self.files()
        self.program.gives("log", "seal", "events")
        self.assertEqual(self.files(), sealed)
        self.append(b"four\n")
        self.assertEqual(self.records(), LINES + b"four\n")

    def test_stat_counts_records_segments_and_bytes(self):
        self.append(LINES)
        self.program.gives("log", "seal", "events")
        self.append(b"four\n")
        files = self.files()
        numbers_wanted = {
            "folder": "events", "records": 4, "first": 0, "next": 4, "segments": 1,
            "segment_bytes": len(files[FIRST]), "tail_bytes": len(files["tail.log"]),
        }
        self.assertEqual(json.loads(self.program.gives("log", "stat", "--json", "events")), numbers_wanted)
        self.program.prints("^  records +4$", "log", "stat", "events")
        done = self.program.run("log", "stat", "gone", "events")
        self.assertEqual((done.returncode, done.stdout[:7]), (3, b"events\n"))


class Reading(LogCase):
    def setUp(self):
        super().setUp()
        self.append(numbers(9, 0))
        self.program.gives("log", "seal", "events")
        self.append(numbers(19, 10))

    def get(self, *words, **how):
        return self.program.gives("log", "get", "events", *words, **how)

    def test_get_prints_records_by_number_and_by_range(self):
        self.assertEqual(self.get("12", "3..5", "19..", "..1"), b"12\n3\n4\n19\n0\n")
        self.assertEqual(self.get("-", input=b"9..11\n\n 0\n"), b"9\n10\n0\n")
        self.assertEqual(self.get("20..", "7..7"), b"")

    def test_get_and_cat_print_numbers_and_json(self):
        self.assertEqual(self.get("--number", "11"), b"11\t11\n")
        self.assertEqual(self.get("--json", "11"), b'{"id":11,"text":"11"}\n')
        self.append(b"\xff\n")
        self.assertEqual(self.records("--json", "--from", "20"), b'{"id":20,"base64":"/w=="}\n')
        self.assertEqual(self.records("--number", "--from", "19"), b"19\t19\n20\t\xff\n")

    def test_cat_begins_where_it_is_asked_to(self):
        for start in (0, 1, 9, 10, 19, 20, 100):
            self.assertEqual(self.records("--from", str(start)), numbers(19, start))
            self.assertEqual(self.records("--last", str(20 - min(start, 20))), numbers(19, start))
        self.assertEqual(self.records("--last", "18446744073709551615", "--from", "3"), numbers(19, 3))
        self.assertEqual(self.records("--last", "5", "--from", "17"), numbers(19, 17))

    def test_a_number_that_the_log_has_not_is_an_error(self):
        said = "events: no record 20; the log has the records 0 to 19\n"
        for words in ("20", "19..21", "..25"):
            self.program.fails(1, said, "log", "get", "events", words)
        self.program.gives("log", "append", "none", input=b"")
        self.program.fails(1, "none: no record 0; the log has none", "log", "get", "none", "0")
        for word in ("x", "1..x", "-1..", "7..3", "99999999999999999999", "18446744073709551615"):
            done = self.program.run("log", "get", "events", "0", "--", word)
            self.assertEqual((done.returncode, done.stdout), (2, b""), word)

    def test_readers_go_on_beside_a_writer(self):
        writing = self.begin("--number")
        self.assertEqual(self.say(writing, b"new\n"), b"20\n")
        self.assertEqual(self.get("19..21"), b"19\nnew\n")
        self.program.prints('"records":21', "log", "stat", "--json", "events")
        said = "^events: sound: 21 records in 1 segment and the tail$"
        self.program.prints(said, "log", "verify", "events", stderr=subprocess.DEVNULL)
        self.assertEqual(self.records("--from", "20"), b"new\n")

    def test_readers_need_no_rights_to_write_and_leave_no_file(self):
        before = self.files()
        (self.folder / "events" / "lock").unlink()
        os.chmod(self.folder / "events", 0o555)
        self.addCleanup(os.chmod, self.folder / "events", 0o755)
        for words in (("cat",), ("stat",), ("verify", "-q")):
            self.program.gives("log", words[0], *words[1:], "events")
        self.get("0")
        self.assertEqual(self.files(), before)
        self.assertNotIn("lock", os.listdir(self.folder / "events"))


class Followed(LogCase):
    """A reader that goes on with the records that come."""

    def setUp(self):
        super().setUp()
        self.append(numbers(9, 0))
        pipes = {"stdout": subprocess.PIPE, "stderr": subprocess.PIPE, "bufsize": 0}
        command = [self.program.path, "log", "cat", "events", "--last", "1", "-f"]
        self.reading = subprocess.Popen(command, cwd=self.folder, **pipes)
        self.addCleanup(self.end_reader)
        self.assertEqual(self.reading.stdout.readline(), b"9\n")

    def end_reader(self):
        self.reading.kill()
        self.reading.wait()
        self.reading.stdout.close()
        self.reading.stderr.close()

    def test_records_are_printed_as_they_come_whatever_is_done_with_the_tail(self):
        for text, words in ((b"a\nb\n", ()), (b"c\n", ("--two-syncs",)), (b"d\n", ("--seal-size", "1")), (b"e\n", ())):
            self.append(text, *words)
            self.assertEqual(b"".join(self.reading.stdout.readline() for _ in text.splitlines()), text)
        self.program.gives("log", "seal", "events")
        self.program.gives("log", "compact", "events")
        self.append(b"f\n")
        self.assertEqual(self.reading.stdout.readline(), b"f\n")

    def test_it_ends_at_the_first_record_after_its_reader_is_gone(self):
        self.reading.stdout.close()
        self.append(b"a\n")
        self.assertEqual(self.reading.wait(timeout=20), 0)
        self.assertEqual(self.reading.stderr.read(), b"")

    def test_a_damaged_tail_ends_it(self):
        tail = self.files()["tail.log"]
        self.change("tail.log", tail[:-1])
        self.assertEqual(self.reading.wait(timeout=20), 1)
        self.assertRegex(self.reading.stderr.read().decode(), "^zevkhadun: events: ")


class Refused(LogCase):
    def test_a_second_writer_is_refused_and_the_first_one_ends(self):
        writing = self.begin("--number")
        self.say(writing, b"one\n")
        said = "zevkhadun: events: the log is being written by another; wait until it ends, or stop it\n"
        for words in (["append", "events"], ["seal", "events"], ["compact", "events"],
                      ["drop", "events", "--before", "1"]):
            self.assertEqual(self.program.fails(3, said, "log", *words, input=LINES).stderr.decode(), said)
        writing.communicate(b"two\n", timeout=60)
        self.assertEqual(self.records(), b"one\ntwo\n")

    def test_what_is_no_log_is_refused_and_kept(self):
        (self.folder / "full").mkdir()
        self.write("full/notes.txt", LINES)
        self.pack("a.store", LINES)
        advice = "not a log; 'zevkhadun log append' begins one in a new or empty folder"
        for name in ("full", "a.store"):
            for words in ("append {}", "cat {}", "get {} 0", "stat {}", "verify -q {}", "seal {}", "compact {}",
                          "drop {} --before 1"):
                self.program.fails(1, f"{name}: {advice}", "log", *words.format(name).split(), input=LINES)
        self.assertEqual(os.listdir(self.folder / "full"), ["notes.txt"])

    def test_a_log_that_is_not_there_is_not_made(self):
        for words in ("cat gone", "get gone 0", "stat gone", "verify -q gone", "seal gone", "compact gone",
                      "drop gone --before 1"):
            self.program.fails(3, "gone: No such file", "log", *words.split())
        self.program.fails(3, "gone/events: No such file", "log", "append", "gone/events", input=LINES)
        self.assertEqual(self.names(), [])

    def test_wrong_words_end_with_2(self):
        for words in ("", "append", "get events", "cat", "stat", "append --sync never x", "append --seal-size x x",
                      "none", "cat --from x events", "append --sync every", "compact", "compact --size x events",
                      "drop events", "drop --before x events", "drop --before -1 events"):
            done = self.program.run("log", *words.split())
            self.assertEqual((done.returncode, done.stdout), (2, b""), words)
        self.assertEqual(self.names(), [])


class Races(LogCase):
    """Readers beside a writer that seals all the time see records without a gap."""

    def test_each_reader_sees_the_first_records(self):
        text = numbers(1000)
        self.append(b"")
        writing = self.begin("--sync", "every", "--seal-size", "200")
        writing.stdin.write(text)
        writing.stdin.close()
        looks = 0
        while writing.poll() is None:
            seen = self.records()
            self.assertTrue(text.startswith(seen), f"after {looks} looks")
            looks += 1
        self.assertEqual(writing.returncode, 0)
        self.assertEqual(self.records(), text)
        self.assertGreater(looks, 2)
