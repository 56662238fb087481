"""Where a device is full, or a file may not grow, the old store stays."""

import resource
import signal

from files.old_store import MIB, OldStoreCase, lines
from harness import limited

# Packs over the old store on a device, after a command that may fill it.
ON_DEVICE = """
cp "$3" "$1/a.store"
sh -c "$4" "" "$1"
"$2" pack --replace "$1/a.store"
echo $?
"$2" cat "$1/a.store"
test ! -e "$1/a.store.part"
"""


class NoRoom(OldStoreCase):
    NEW = lines(200_000)

    def assert_too_large(self, most, text):
        """No file may have more bytes than this, and the text needs more."""
        limit = limited(resource.RLIMIT_FSIZE, most)
        words = ["pack", "--replace", "a.store"]
        self.assert_refused(3, "a.store", "File too large", *words, input=text, preexec_fn=limit)

    def assert_full_device(self, fill, text):
        """Packs a text over the old store on a device, after the command `fill` wrote other files to it."""
        done = self.on_device(ON_DEVICE, self.program.path, self.path, fill, input=text)
        self.assertIn(b"No space left on device", done.stderr)
        self.assertEqual((done.returncode, done.stdout), (0, b"3\n" + self.OLD))

    def test_a_limit_on_the_size_of_files_leaves_the_old_store(self):
        self.assert_too_large(MIB, self.NEW)

    def test_a_signal_about_the_size_of_files_leaves_the_old_store(self):
        limit = limited(resource.RLIMIT_FSIZE, MIB, signal.SIG_DFL)
        done = self.program.run("pack", "--replace", "a.store", input=self.NEW, preexec_fn=limit)
        self.assertNotEqual(done.returncode, 0)
        self.assertEqual(self.text(), self.OLD)

    def test_a_full_device_leaves_the_old_store(self):
        self.assert_full_device("true", self.NEW)

    # The bytes of a small store go to the system when it is closed, so these refuse the close.
    def test_a_close_on_a_full_device_leaves_the_old_store(self):
        self.assert_full_device('cat /dev/zero >"$1/full" 2>/dev/null', lines(3))

    def test_a_close_at_the_limit_on_the_size_of_files_leaves_the_old_store(self):
        self.assert_too_large(0, lines(3))
