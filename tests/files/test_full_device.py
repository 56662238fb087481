"""A small device that is full at each point of a command, and then has room again: nothing acknowledged is lost."""

import os
import subprocess
from pathlib import Path

from files.old_store import lines
from harness import UNSHARED, ProgramCase, changed, numbers

# Makes a device of 600 KB in the folder `$1`, which is there until the input ends.
MOUNT = 'mount -t tmpfs -o size=600k none "$1" && echo mounted && cat'
# More pages than a command here needs.
MOST = 60
REASON = "No space left on device (os error 28)"


class DeviceCase(ProgramCase):
    """A test whose folder is a small device, as the process sees it that has it mounted."""

    def setUp(self):
        super().setUp()
        self.require("unshare")
        command = [*UNSHARED, "sh", "-c", MOUNT, "", self.folder]
        pipes = {"stdin": subprocess.PIPE, "stdout": subprocess.PIPE, "stderr": subprocess.DEVNULL}
        mounting = subprocess.Popen(command, **pipes)
        self.addCleanup(mounting.communicate)
        device = Path(f"/proc/{mounting.pid}/root{self.folder}")
        if mounting.stdout.readline() != b"mounted\n" or not os.access(device, os.W_OK):
            self.skipTest("no device can be mounted here")
        self.folder = device

    def fill(self, pages):
        """Leaves this many pages of the device free."""
        device = os.statvfs(self.folder)
        self.write("full", bytes((device.f_bavail - pages) * device.f_frsize))
        self.assertEqual(os.statvfs(self.folder).f_bavail, pages)

    def free(self):
        """Removes what fills the device."""
        (self.folder / "full").unlink()

    def run_at_each_point(self, name, command, on_full, once_free):
        """Runs a command where no page is free, where one is, and so on until it has the room that it needs; before
        that it has to say of this name that there is none. Each time `on_full` is given what it ended with, and
        `once_free` goes on once the device has room. Returns how often the command failed."""
        for pages in range(MOST):
            self.fill(pages)
            done = command()
            said = done.stderr.decode().split("\n")[0]
            self.assertIn((done.returncode, said), ((0, ""), (3, f"zevkhadun: {name}: {REASON}")))
            on_full(done)
            self.free()
            once_free()
            if done.returncode == 0:
                return pages
        return self.fail(f"{MOST} pages are too few")


class Stores(DeviceCase):
    def test_pack_keeps_the_old_store_until_the_new_one_has_room(self):
        old, new = lines(10, b"old"), lines(5000)
        self.pack("a.store", old)

        def pack():
            return self.program.run("pack", "--replace", "a.store", input=new)

        def on_full(done):
            self.assert_documents("a.store", old if done.returncode else new)
            self.assert_missing("a.store.part")

        def once_free():
            self.program.gives("verify", "-q", "a.store")

        self.assertGreater(self.run_at_each_point("a.store", pack, on_full, once_free), 15)


class Repairs(DeviceCase):
    """A log whose second batch is damaged, and is followed by another one."""

    def append(self, last, first):
        """Appends numbers as one batch, and returns the tail."""
        self.program.gives("log", "append", "events", input=numbers(last, first))
        return self.read("events/tail.log")

    def test_a_repair_keeps_what_it_cuts_off(self):
        sound = self.append(2999, 0)
        self.append(5999, 3000)
        damaged = changed(self.append(8999, 6000), len(sound) + 1000, b"?")
        self.write("events/tail.log", damaged)

        def repair():
            return self.program.run("log", "repair", "events")

        def on_full(done):
            paths = [path for path in (self.folder / "events").glob("tail.cut.*") if path.suffix != ".part"]
            tail, cuts = self.read("events/tail.log"), [path.read_bytes() for path in paths]
            if done.returncode:
                self.assert_same(tail, damaged, "the tail after a repair that failed")
            else:
                self.assertTrue(any(tail + cut == damaged for cut in cuts), "bytes are lost")

        self.assertGreater(self.run_at_each_point("events", repair, on_full, lambda: None), 5)
        self.append(3000, 3000)
        self.assertEqual(self.program.gives("log", "cat", "events"), numbers(3000, 0))


class Logs(DeviceCase):
    """A log of segments and a tail, whose records are their numbers. Each time a command has failed, the oldest segment
    is dropped on the full device, and once there is room, the log goes on."""

    # How many segments there are, how many records each has, and how many the tail has.
    SEGMENTS, SEALED, APPENDED = 20, 300, 4000

    def setUp(self):
        super().setUp()
        self.first = self.next = 0
        for _ in range(self.SEGMENTS):
            self.append(self.SEALED)
            self.program.gives("log", "seal", "events")
        self.append(self.APPENDED)

    def append(self, count):
        """Appends records."""
        new = numbers(self.next + count - 1, self.next)
        self.assertEqual(self.program.gives("log", "append", "events", "--number", input=new), new)
        self.next += count

    def assert_records(self):
        """The log has all records and no others."""
        self.assert_same(self.program.gives("log", "cat", "events"), numbers(self.next - 1, self.first), "records")

    def drop_oldest(self):
        """Drops the records of the oldest segment."""
        self.first += self.SEALED
        self.program.gives("log", "drop", "events", "--before", str(self.first))
        self.assert_records()

    def go_on(self):
        """The log is sound, and takes another record."""
        self.append(1)
        self.assert_records()
        self.program.gives("log", "verify", "-q", "events")

    def run_without_records(self, *words):
        """Runs a command that brings no records at each point. Returns how often it failed."""
        def on_full(done):
            self.assertEqual(list(self.folder.glob("events/*.part")), [])
            self.assert_records()
            if done.returncode:
                self.drop_oldest()

        def command():
            return self.program.run("log", *words, "events")

        return self.run_at_each_point("events", command, on_full, self.go_on)

    def run_append(self, count, *words):
        """Appends records at each point. Returns how often it failed."""
        def append():
            new = numbers(self.next + count - 1, self.next)
            return self.program.run("log", "append", "events", "--number", *words, input=new)

        def on_full(done):
            self.assertEqual(list(self.folder.glob("events/*.part")), [])
            acknowledged = done.stdout.count(b"\n")
            self.assertEqual(done.stdout, numbers(self.next + acknowledged - 1, self.next))
            found = self.program.gives("log", "cat", "events").count(b"\n") - (self.next - self.first)
            self.assertIn(found, range(acknowledged, count + 1))
            self.next += found
            self.assert_records()
            if done.returncode:
                self.drop_oldest()

        return self.run_at_each_point("events", append, on_full, self.go_on)

    def test_an_append_keeps_what_it_has_acknowledged(self):
        for sync in ("every", "batch", "end"):
            with self.subTest(sync=sync):
                self.assertGreater(self.run_append(1000, "--sync", sync), 1)

    def test_an_append_with_two_syncs_keeps_what_it_has_acknowledged(self):
        self.assertGreater(self.run_append(100, "--two-syncs"), 5)

    def test_an_append_that_seals_keeps_what_it_has_acknowledged(self):
        self.assertGreater(self.run_append(100, "--sync", "every", "--seal-size", "4K"), 5)

    def test_a_seal_keeps_all_records(self):
        self.assertGreater(self.run_without_records("seal"), 5)

    def test_a_compaction_keeps_all_records(self):
        self.assertGreater(self.run_without_records("compact"), 5)

    def test_segments_before_a_torn_tail_can_be_dropped(self):
        torn = self.read("events/tail.log")[:-1]
        self.write("events/tail.log", torn)
        # As after a writer that was killed: no mark says that it ended well.
        self.write("events/lock", b"none")
        for left in range(self.SEGMENTS - 1, 0, -1):
            self.fill(0)
            self.assert_no_room()
            self.first += self.SEALED
            self.program.gives("log", "drop", "events", "--before", str(self.first))
            self.free()
            self.assertEqual(len(list(self.folder.glob("events/*.store"))), left)
            self.assert_same(self.read("events/tail.log"), torn, "the tail")
        done = self.program.run("log", "append", "events")
        self.assertEqual(done.returncode, 0, done.stderr)
        self.assertIn(b"were no whole batch, as after a crash", done.stderr)
        self.drop_all_segments()

    def assert_no_room(self):
        """On the full device a command fails that opens the log and writes; it leaves the device as full as it was."""
        self.program.fails(3, f"zevkhadun: events: {REASON}", "log", "seal", "events")
        self.assertEqual(os.statvfs(self.folder).f_bavail, 0)

    def drop_all_segments(self):
        """Drops the records of all segments on the full device."""
        self.fill(0)
        self.assert_no_room()
        self.program.gives("log", "drop", "events", "--before", str(self.next))
        self.free()
        self.assertEqual(list(self.folder.glob("events/*.store")), [])

    def test_each_segment_can_be_dropped(self):
        for _ in range(self.SEGMENTS):
            self.fill(0)
            self.assert_no_room()
            self.drop_oldest()
            self.free()
        self.go_on()
