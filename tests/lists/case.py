"""A test of what storetool answers."""

from __future__ import annotations

import subprocess
from collections.abc import Iterable

from harness import SECONDS, STORETOOL, Case


class ToolCase(Case):
    def answers(self, lines: Iterable[str]) -> list[str]:
        """What storetool answers to a script."""
        script = "".join(f"{line}\n" for line in lines).encode()
        done = subprocess.run([STORETOOL.path()], input=script, capture_output=True, timeout=SECONDS)
        self.assertEqual(done.returncode, 0, done.stderr)
        return done.stdout.decode().splitlines()
