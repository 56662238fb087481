"""A device whose writes fail: a file system in a file, on a device that is full. Nothing acknowledged is lost."""

import os
import subprocess

from harness import PROGRAM, UNSHARED, ProgramCase

# Runs a command, `$3`, of the program `$2` while writes fail, with records in `more`. Then the next process appends,
# and the file system is mounted again. Prints the status of the command, the numbers that were acknowledged, and the
# log.
SCRIPT = """\
mount -t tmpfs -o size=8m none "$1" && cd "$1" && truncate -s 64m image && mkfs.ext2 -q -F -b 4096 image || exit 77
mkdir disk && mount -o loop image disk || exit 77
seq 0 2999 | "$2" log append disk/log --number >numbers || exit 1
seq 3000 6999 >more
sync
head -c 9000000 /dev/zero >full 2>/dev/null
eval "\\"$2\\" log $3" <more >>numbers 2>said
echo "$?"
rm full
seq 9000 9003 | "$2" log append disk/log --number >>numbers || exit 1
umount disk && mount -o loop image disk || exit 1
tr '\\n' ' ' <numbers
echo
exec "$2" log cat disk/log --number
"""


class Failing(ProgramCase):
    """A log on such a device."""

    def on_failing_device(self, command: str) -> tuple[int, list[int], dict[int, bytes]]:
        """The status of a command, the numbers that were acknowledged, and the records that the device has."""
        self.require(UNSHARED[0], "mkfs.ext2", "truncate", "seq")
        if os.geteuid():
            self.skipTest("only root mounts a file")
        words = [*UNSHARED, "sh", "-c", SCRIPT, "", self.folder, PROGRAM.path(), command]
        done = subprocess.run(words, capture_output=True, timeout=120)
        if done.returncode == 77:
            self.skipTest("no file can be mounted here")
        self.assertEqual((done.returncode, done.stderr), (0, b""))
        status, numbers, *lines = done.stdout.split(b"\n")
        records = dict(line.split(b"\t") for line in lines if line)
        return int(status), [int(one) for one in numbers.split()], {int(one): records[one] for one in records}

    def keeps(self, command: str, least: int) -> None:
        """Checks that all acknowledged records are there, each under its number, after this command. The next process
        gives no number below this one."""
        status, numbers, records = self.on_failing_device(command)
        # A system that noticed no failed write has acknowledged all of them.
        self.assertIn(status, (0, 3))
        self.assertEqual(sorted(set(numbers)), numbers, "a number was given out twice")
        self.assertEqual([number for number in numbers if number not in records], [], "acknowledged, and not there")
        self.assertEqual([records[number] for number in numbers[:3000]], [b"%d" % i for i in range(3000)])
        self.assertEqual([records[number] for number in numbers[-4:]], [b"%d" % i for i in range(9000, 9004)])
        self.assertGreaterEqual(numbers[-4], least)
        for number in numbers[3000:-4]:
            self.assertEqual(records[number], b"%d" % number)

    def test_an_append(self):
        self.keeps("append disk/log --number", 3000)

    def test_an_append_with_two_syncs(self):
        self.keeps("append disk/log --number --two-syncs", 3000)

    def test_an_append_that_syncs_each_record(self):
        self.keeps("append disk/log --number --sync every", 3000)

    def test_an_append_that_seals(self):
        self.keeps("append disk/log --number --seal-size 1", 3000)

    def test_a_seal(self):
        self.keeps("seal disk/log", 3000)
