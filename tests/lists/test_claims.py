"""A file that claims 4,294,967,295 documents, which storetool iterates."""

from __future__ import annotations

import re
import subprocess
from pathlib import Path

from harness import STORETOOL
from lists.case import ToolCase

# The byte `x` as a block of 4294967295 documents, each of which is damaged.
FILE = "78" "8189818080" "7f7f7f7f8f" "81" "03000000" "0100000000000000" "0008" + "00" * 14
# A live set of that many documents has 512 MiB.
LIMIT_KB = 256 * 1024


class Claims(ToolCase):
    def test_an_iteration_without_a_set_takes_no_memory_for_each_document(self):
        pipes = {"stdin": subprocess.PIPE, "stdout": subprocess.PIPE}
        with subprocess.Popen([STORETOOL.path()], **pipes) as running:
            running.stdin.write(f"load {FILE}\niter 0\n".encode())
            running.stdin.close()
            said = [running.stdout.readline() for _ in range(3)]
            status = Path(f"/proc/{running.pid}/status").read_text()
            running.kill()
        self.assertEqual(said, [b"store 0 40\n", b"error 7\n", b"error 7\n"])
        self.assertLess(int(re.search(r"VmHWM:\s+(\d+) kB", status)[1]), LIMIT_KB)
