"""Files that the package for Rust writes, by its example `pack`: each call of the system fails in turn."""

from __future__ import annotations

import os
from pathlib import Path

from harness import numbers
from library.compiling import LibraryCase
from packages.cargo import example
from packages.files import FailingCallTests, PackageTests


class RustProgram:
    """The program, for a test case."""

    def new_program(self) -> tuple[Path, dict[str, str]]:
        self.require("cargo")
        return example("pack"), dict(os.environ)


class PackInRust(RustProgram, PackageTests, LibraryCase):
    def test_a_message_has_the_path_and_the_reason(self):
        done = self.pack("none/store", numbers(9))
        folder = os.path.join(self.work, "none")
        self.assertEqual(done.stderr.decode(), f"pack: {folder}: No such file or directory (os error 2)\n")


class FailingCalls(RustProgram, FailingCallTests, LibraryCase):
    CALLS = {"fchown", "fchmod"}
    NEEDLESS = {("fchown", 1), ("fchown", 2)}
