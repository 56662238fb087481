"""The lists of the library's errors are those of their one table."""

from __future__ import annotations

import subprocess
import sys

from harness import TOP, Case


class Refusals(Case):
    def test_each_list_of_errors_is_that_of_the_table(self):
        command = [sys.executable, str(TOP / "tools/refusals.py"), "--check"]
        done = subprocess.run(command, capture_output=True, text=True, timeout=60)
        self.assertEqual(done.returncode, 0, done.stdout + done.stderr)
        self.assertIn(" 0 differ", done.stdout)
