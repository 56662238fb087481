"""A process that is ended at any moment of a write leaves the old store or the whole new one."""

import time

from files.old_store import OldStoreCase, lines


class Killed(OldStoreCase):
    NEW = lines(300_000, b"a new line")
    MOMENTS = 80

    def setUp(self):
        super().setUp()
        self.write("input", self.NEW)

    PACK = ("pack", "--replace")

    def write_whole(self, command=PACK):
        """Writes the new store, and returns how many seconds it takes."""
        self.pack_old()
        start = time.monotonic()
        self.program.gives(*command, "a.store", "input")
        return time.monotonic() - start

    def write_until(self, seconds, command=PACK):
        """Ends a write after this time, and returns whether it left an unfinished file."""
        writing = self.begin(*command, "a.store", "input")
        time.sleep(seconds)
        writing.kill()
        writing.wait()
        return "a.store.part" in self.names()

    def test_a_kill_at_any_moment_leaves_the_old_store_or_the_new_one(self):
        for command, new in ((self.PACK, self.NEW), (("append",), self.OLD + self.NEW)):
            with self.subTest(command[0]):
                self.kill_at_moments(command, new)

    def kill_at_moments(self, command, new):
        """Kills the command at many moments of its time; both texts and an unfinished file are left by some."""
        whole = max(self.write_whole(command) for _ in range(3))
        left = {self.OLD: 0, new: 0}
        unfinished = 0
        moments = [whole * 1.3 * moment / self.MOMENTS for moment in range(self.MOMENTS)]
        # Where the machine became slower meanwhile, some more come late enough.
        for seconds in moments + [whole * 2**power for power in range(1, 8)]:
            if seconds > moments[-1] and left[new]:
                break
            self.pack_old()
            unfinished += self.write_until(seconds, command)
            text = self.text()
            self.assertTrue(text in left, f"neither the old text nor the new one, after {seconds} s")
            left[text] += 1
        counts = {"old": left[self.OLD], "new": left[new], "unfinished": unfinished}
        self.assertTrue(all(counts.values()), f"every kill came at the same moment: {counts}")

    def test_what_a_killed_writer_left_is_taken_over(self):
        seconds = self.write_whole() / 2
        for _ in range(20):
            if self.write_until(seconds):
                break
            seconds /= 2
        else:
            self.fail("no kill left an unfinished file")
        self.write_whole()
        self.assert_documents("a.store", self.NEW)
        self.assertEqual(self.names(), ["a.store", "input"])
