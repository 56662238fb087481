"""Where a device is full, or a file may not grow, a log keeps what it has acknowledged, and says why it failed."""

import resource

from files.old_store import lines
from harness import ProgramCase, limited

TEXT = lines(100_000)
WORDS = ("log", "append", "events", "--number", "--sync", "batch")

# What is said: the reason, and how many records were acknowledged after an old one.
FAILED = r"""^zevkhadun: events: {} \(os error \d+\)
zevkhadun: events: appended: {} records, numbers 1 to \d+; 'zevkhadun log stat' says whether more are in
$"""

# Appends to a log on a device, and prints its records once there is room.
ON_DEVICE = """
cd "$1"
echo old | "$2" log append events
head -c 400000 /dev/zero >full
"$2" log append events --number --sync every >/dev/null
echo $?
rm full
"$2" log append events </dev/null 2>/dev/null
"$2" log cat events
"""

# Appends more to a log of segments and a tail than a device has room for, and then drops its old records.
DROPPED_ON_DEVICE = """
cd "$1"
for record in 1 2 3; do echo $record | "$2" log append -q events; "$2" log seal events; done
head -c 300000 "$3" | "$2" log append -q events
head -c 1000000 /dev/zero >full
"$2" log append -q events "$3" 2>/dev/null
echo $?
"$2" log drop events --before 2
echo $?
"$2" log cat events --from 2 | head -n 1
"""


class NoRoom(ProgramCase):
    def test_a_limit_on_the_size_of_files_leaves_what_was_acknowledged(self):
        self.program.gives("log", "append", "events", input=b"old\n")
        limit = limited(resource.RLIMIT_FSIZE, 500_000)
        done = self.program.run(*WORDS, input=TEXT, preexec_fn=limit)
        acknowledged = done.stdout.count(b"\n")
        self.assertGreater(acknowledged, 0)
        self.assertEqual(done.returncode, 3)
        self.assertRegex(done.stderr.decode(), FAILED.format("File too large", acknowledged))
        text = self.program.gives("log", "cat", "events")
        self.assertTrue((b"old\n" + TEXT).startswith(text))
        self.assertGreaterEqual(text.count(b"\n"), 1 + acknowledged)

    def test_a_seal_that_has_no_room_leaves_the_records(self):
        # A tail of 1 MiB is sealed at the end of the append.
        text = TEXT[:TEXT.index(b"\n", 400_000) + 1]
        self.program.gives("log", "append", "events", input=text)
        limit = limited(resource.RLIMIT_FSIZE, 100_000)
        self.program.fails(3, "events: File too large", "log", "seal", "events", preexec_fn=limit)
        self.assertEqual(self.program.gives("log", "cat", "events"), text)
        self.program.gives("log", "seal", "events")
        self.assertEqual(self.program.gives("log", "cat", "events"), text)

    def test_a_full_device_leaves_what_was_acknowledged(self):
        done = self.on_device(ON_DEVICE, self.program.path, input=TEXT)
        self.assertRegex(done.stderr.decode(), FAILED.format("No space left on device", r"\d+"))
        status, _, text = done.stdout.partition(b"\n")
        self.assertEqual(status, b"3")
        self.assertTrue((b"old\n" + TEXT).startswith(text))
        self.assertGreater(len(text), 100_000)

    def test_old_records_are_dropped_where_a_device_is_full(self):
        text = self.write("text", TEXT)
        done = self.on_device(DROPPED_ON_DEVICE, self.program.path, text)
        self.assertEqual(done.stdout, b"3\n0\n3\n", done.stderr)
