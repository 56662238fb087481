"""What a power cut leaves of a store that the packages write: the calls of their examples, cut at each point."""

from __future__ import annotations

from library.compiling import EXAMPLES, LibraryCase, default_compiler
from library.test_replay_by_path import ReplayedPacking
from packages.cargo import example
from packages.installed import PACKAGE, InstalledCase, python

# Runs the example by the interpreter that has the package.
RUN = """#!/bin/sh
PYTHONDONTWRITEBYTECODE=1 exec '{python}' '{example}' "$@"
"""


class PackageReplay(ReplayedPacking):
    """The tests, for a test case that has the program that packs lines in `new_program`."""

    def setUp(self):
        super().setUp()
        self.printing = self.compiled([default_compiler(), "-std=c11"], EXAMPLES / "print_store.c")
        self.packing = self.new_program()
        self.folder = self.new_folder()


class ReplayInPython(PackageReplay, InstalledCase):
    def new_program(self):
        program = self.programs / "pack"
        program.write_text(RUN.format(python=python(), example=PACKAGE / "examples/pack.py"))
        program.chmod(0o755)
        return program


class ReplayInRust(PackageReplay, LibraryCase):
    def new_program(self):
        self.require("cargo")
        return example("pack")
