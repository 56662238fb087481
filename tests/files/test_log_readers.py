"""Readers in loops beside a writer that appends to a log, seals, joins and drops."""

import os
import random
import re
import subprocess
import threading
import time

from program.log_case import LogCase

# For how long at least, and how many readers of each kind there are.
SECONDS = float(os.environ.get("ZEVKHADUN_READER_SECONDS", "12"))
# By then a slow machine has dropped records and read some.
MOST_SECONDS = SECONDS + 300
READERS = 2
# How many records an append brings, and how many a drop leaves at least.
BATCH = 200
KEPT = 1500
NO_RECORD = re.compile(r"zevkhadun: events: no record (\d+); the log has the records (\d+) to (\d+)\n")


class Beside(LogCase):
    """A record is its number, in digits."""

    def setUp(self):
        super().setUp()
        self.faults = []
        self.reads = {"got": 0, "printed": 0, "dropped": 0}
        self.is_over = False
        # The number after the last record that was acknowledged, and the one before which records may be gone.
        self.acknowledged = 0
        self.dropped = 0

    def read(self, *words: str) -> subprocess.CompletedProcess:
        """A reading command of `log`."""
        return self.program.run("log", *words)

    def check_dropped(self, done: subprocess.CompletedProcess, number: int) -> None:
        """A reader fails only for a record that was dropped, and then it names the first that is left."""
        said = NO_RECORD.fullmatch(done.stderr.decode())
        if done.returncode != 1 or not said or int(said[1]) != number or not number < int(said[2]) <= self.dropped:
            self.faults.append((number, self.dropped, done.returncode, done.stderr))
        self.reads["dropped"] += 1

    def get_one(self) -> None:
        """Gets a record that was acknowledged before."""
        number = random.randrange(self.acknowledged)
        done = self.read("get", "events", str(number))
        if done.returncode != 0:
            return self.check_dropped(done, number)
        if done.stdout != b"%d\n" % number:
            self.faults.append((number, done.stdout[:100]))
        self.reads["got"] += 1

    def print_all(self) -> None:
        """Prints all records: at least those that were acknowledged before."""
        acknowledged = self.acknowledged
        done = self.read("cat", "events")
        numbers = [int(line) for line in done.stdout.split()]
        if numbers != list(range(numbers[0], numbers[0] + len(numbers))) if numbers else done.returncode == 0:
            self.faults.append(("other records", numbers[:3], numbers[-3:], len(numbers)))
        if done.returncode != 0:
            next_number = numbers[-1] + 1 if numbers else int(NO_RECORD.fullmatch(done.stderr.decode())[1])
            return self.check_dropped(done, next_number)
        if numbers[0] > self.dropped or numbers[-1] + 1 < acknowledged:
            self.faults.append(("missing", numbers[0], self.dropped, numbers[-1], acknowledged))
        self.reads["printed"] += 1

    def repeat(self, call) -> None:
        """Makes a call until the writer has ended."""
        while not self.is_over:
            try:
                call()
            except Exception as fault:
                self.faults.append(repr(fault))
                return

    def is_enough(self, seconds: float) -> bool:
        """Whether, after these seconds, readers have read some records, and some were dropped."""
        has_read = min(self.reads["got"], self.reads["printed"]) > 10
        return seconds > MOST_SECONDS or (seconds > SECONDS and has_read and self.dropped > 0)

    def write_some(self, turn: int) -> None:
        """Appends records, and changes the files that have them."""
        more = b"".join(b"%d\n" % number for number in range(self.acknowledged, self.acknowledged + BATCH))
        self.append(more, "--seal-size", "512")
        self.acknowledged += BATCH
        if turn % 2 == 0:
            self.program.gives("log", "seal", "events")
        if turn % 5 == 0:
            self.program.gives("log", "compact", "events", "--size", "4K")
        if turn % 7 == 0 and self.acknowledged > KEPT:
            self.dropped = self.acknowledged - KEPT
            self.program.gives("log", "drop", "events", "--before", str(self.dropped))

    def test_no_record_is_missing_and_no_error_comes_but_that_of_a_drop(self):
        self.write_some(1)
        readers = [threading.Thread(target=self.repeat, args=(call,))
                   for call in (self.get_one, self.print_all) for _ in range(READERS)]
        for reader in readers:
            reader.start()
        turn, begin = 1, time.monotonic()
        while not self.faults and not self.is_enough(time.monotonic() - begin):
            turn += 1
            self.write_some(turn)
        self.is_over = True
        for reader in readers:
            reader.join()
        self.assertEqual(self.faults, [])
        self.assertGreater(min(self.reads["got"], self.reads["printed"]), 10, self.reads)
        self.assertGreater(self.dropped, 0)
