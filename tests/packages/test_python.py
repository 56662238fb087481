"""The package for Python: its wheel, its tests where it is installed, and its types."""

from __future__ import annotations

import re
import subprocess
import sys
import tarfile
import zipfile

from harness import TOP
from library.compiling import SECONDS, prefix
from packages.installed import (
    PACKAGE, InstalledCase, environment, interpreters, new_environment, new_wheel, python, run, wheel,
)

WORDS = """
from zevkhadun import Store, Writer

with Writer("words.store") as writer:
    writer.extend([b"apple", b"banana"])
with Store("words.store") as store:
    print(len(store), store[-1])
"""
# The version of the Python that runs the tests.
THIS = "%d.%d" % sys.version_info[:2]
# A program of a user, for a type checker, and a line that has another type.
TYPED = """
from typing import List, Optional

from zevkhadun import RangedStore, Store, Stores, Writer

store = Store("a.store")
first: bytes = store[0]
two: List[bytes] = store[0:2]
many: List[bytes] = store.get_many([1, 2])
view: memoryview = store.view(0)
blocks: Optional[int] = Store("a.store", check=False).num_blocks
stores: bytes = Stores(["b.store", store], check=False)[0]
ranged: bytes = RangedStore(lambda start, length: bytes(length), 28)[0]
with Writer("c.store") as writer:
    number: int = writer.put(b"apple")
    writer.extend(document for document in store)
"""
UNTYPED = """
writer.put("text")
"""
# A line of unittest about a skipped test: its name and the reason. What a test says of itself stands between them.
SKIPPED = re.compile(r"^(test_\w+) \([^\n]*\)(?:\n[^\n]*)? \.\.\. skipped ['\"](.*)['\"]$", re.M)
BUILD_SOURCE_ARCHIVE = """
import sys
sys.path.insert(0, sys.argv[1])
import zevkhadun_build
print(zevkhadun_build.build_sdist(sys.argv[2]))
"""


class Python(InstalledCase):
    def pass_tests(self, interpreter):
        """The tests of the package pass where an interpreter has it."""
        command = [interpreter, "-W", "error", "-m", "unittest", "discover", "-v", "-s", PACKAGE / "tests"]
        done = subprocess.run(
            command, cwd=self.folder, env=environment(), capture_output=True, text=True, timeout=SECONDS
        )
        self.assertEqual(done.returncode, 0, done.stderr[-4000:])
        self.assertGreater(int(re.search(r"^Ran (\d+) tests", done.stderr, re.M)[1]), 80, "tests")
        for name, reason in SKIPPED.findall(done.stderr):
            with self.subTest(name):
                self.skipTest(reason)

    def test_the_tests_of_the_package_pass_where_it_is_installed(self):
        self.pass_tests(python())

    def test_they_pass_with_each_other_version_of_python(self):
        """The one wheel, installed for each CPython from 3.11 on that the machine has."""
        others = {version: path for version, path in interpreters().items() if version != THIS}
        if not others:
            self.skipTest(f"there is no other CPython from 3.11 on than {THIS}")
        for version, interpreter in others.items():
            with self.subTest(version):
                self.pass_tests(new_environment(self.folder / version, wheel(), interpreter))

    def test_the_package_is_that_of_the_wheel(self):
        path = self.succeed(python(), "-c", "import zevkhadun; print(zevkhadun.__file__)", env=environment()).decode()
        self.assertIn("site-packages", path)
        version = self.succeed(python(), "-c", "import zevkhadun; print(zevkhadun.__version__)", env=environment())
        self.assertEqual(version.decode(), (TOP / "VERSION").read_text())


class Wheel(InstalledCase):
    def test_the_wheel_has_the_package_and_nothing_else(self):
        version = (TOP / "VERSION").read_text().strip()
        name = rf"^zevkhadun-{re.escape(version)}-cp311-abi3-(?:manylinux_\d+_\d+|linux)_\w+\.whl$"
        self.assertRegex(wheel().name, name)
        inside = {path.name for path in (PACKAGE / "src/zevkhadun").glob("*.py*")} | {"py.typed", "_core.abi3.so"}
        about = {"METADATA", "WHEEL", "RECORD", "LICENSE"}
        with zipfile.ZipFile(wheel()) as archive:
            self.assertIsNone(archive.testzip())
            self.assertEqual(
                set(archive.namelist()),
                {f"zevkhadun/{name}" for name in inside} | {f"zevkhadun-{version}.dist-info/{name}" for name in about},
            )

    def test_the_same_sources_make_the_same_wheel(self):
        again = new_wheel(PACKAGE, self.folder / "again", ZEVKHADUN_PREFIX=str(prefix()))
        self.assert_same(again.read_bytes(), wheel().read_bytes(), "the second wheel")

    def test_a_source_archive_has_the_library_inside(self):
        command = [sys.executable, "-c", BUILD_SOURCE_ARCHIVE, PACKAGE / "backend", self.folder]
        name = run(*command, env=environment(ZEVKHADUN_PREFIX=str(prefix()))).strip()
        with tarfile.open(self.folder / name) as archive:
            archive.extractall(self.folder)
        built = new_wheel(self.folder / name.removesuffix(".tar.gz"), self.folder / "wheels")
        interpreter = new_environment(self.folder / "environment", built)
        self.assertEqual(self.succeed(interpreter, "-c", WORDS, env=environment()), b"2 b'banana'\n")

    def test_a_build_without_the_library_says_what_it_needs(self):
        with self.assertRaisesRegex(AssertionError, "ZEVKHADUN_PREFIX names PREFIX"):
            new_wheel(PACKAGE, self.folder / "wheels")


class Types(InstalledCase):
    def mypy(self, *words):
        """What mypy prints of files, by its strictest rules, over the installed package."""
        command = [*self.checker, "--strict", "--cache-dir", self.folder / "cache", "--python-executable", python()]
        return subprocess.run([*command, *words], cwd=self.folder, capture_output=True, text=True, timeout=SECONDS)

    def setUp(self):
        super().setUp()
        self.checker = next(filter(runs, (["mypy"], [sys.executable, "-m", "mypy"], ["/usr/bin/mypy"])), None)
        if self.checker is None:
            self.skipTest("there is no mypy")

    def test_mypy_finds_nothing_in_the_package(self):
        done = self.mypy(PACKAGE / "src/zevkhadun")
        self.assertEqual(done.returncode, 0, done.stdout + done.stderr)

    def test_a_program_has_the_types_of_the_package(self):
        done = self.mypy(self.write("typed.py", TYPED.encode()))
        self.assertEqual(done.returncode, 0, done.stdout + done.stderr)
        done = self.mypy(self.write("untyped.py", (TYPED + UNTYPED).encode()))
        self.assertRegex(done.stdout, r'error: Argument 1 to "put"[^\n]*\nFound 1 error')


def runs(command):
    """Whether there is such a program."""
    try:
        return subprocess.run([*command, "--version"], capture_output=True).returncode == 0
    except OSError:
        return False
