"""Files that the package for Python writes, by its example `pack.py`: each call of the system fails in turn."""

from __future__ import annotations

import os
from pathlib import Path

from harness import numbers
from packages.files import FailingCallTests, PackageTests
from packages.installed import PACKAGE, InstalledCase, environment, python

# Runs the example by the interpreter that has the package.
RUN = """#!/bin/sh
exec '{python}' '{example}' "$@"
"""


class PythonProgram:
    """The program, for a test case."""

    # It writes a MiB at a time.
    many = numbers(500_000)

    def new_program(self) -> tuple[Path, dict[str, str]]:
        program = self.write("pack", RUN.format(python=python(), example=PACKAGE / "examples/pack.py").encode())
        program.chmod(0o755)
        return program, environment()


class PackInPython(PythonProgram, PackageTests, InstalledCase):
    def test_a_message_has_the_path_and_the_reason(self):
        done = self.pack("none/store", numbers(9))
        folder = os.path.join(self.work, "none")
        self.assertEqual(done.stderr.decode(), f"pack: [Errno 2] No such file or directory: {folder!r}\n")


class FailingCalls(PythonProgram, FailingCallTests, InstalledCase):
    CALLS = {"chown", "chmod"}
    # `open` asks what the file is, and goes on if it gets no answer.
    NEEDLESS = {("chown", 1), ("chown", 2), ("newfstatat", 2)}
