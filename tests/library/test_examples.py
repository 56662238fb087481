"""The examples, over the shared library by the flags of pkg-config where it is."""

import os
import shutil
import subprocess

from harness import TOP
from library.compiling import EXAMPLES, HEX, WARNINGS, LibraryCase, default_compiler, prefix

# A store of the two documents "abc" and "de".
TWO = bytes.fromhex(
    "6162636465 00000000 03000000 02000000 8185818080829103000000110000000000000000080000000000000000000000000000"
)


def pkg_config(*words: str) -> str:
    """What pkg-config answers about the library."""
    names = os.environ | {"PKG_CONFIG_PATH": str(prefix() / "lib/pkgconfig")}
    done = subprocess.run(["pkg-config", *words, "zevkhadun"], env=names, capture_output=True, text=True, check=True)
    return done.stdout.strip()


def shared_flags() -> list[str]:
    """The flags by which a program is compiled over the shared library."""
    if shutil.which("pkg-config"):
        return pkg_config("--cflags", "--libs").split()
    return [f"-I{prefix() / 'include'}", f"-L{prefix() / 'lib'}", "-lzevkhadun"]


def with_library() -> dict[str, str]:
    """The environment in which programs find the shared library."""
    return os.environ | {"LD_LIBRARY_PATH": str(prefix() / "lib")}


class ExampleCase(LibraryCase):
    def example(self, name):
        """A program of bindings/c/examples over the shared library."""
        source = EXAMPLES / name
        program = self.folder / source.stem
        self.succeed(default_compiler(), "-std=c11", *WARNINGS, "-o", program, source, *shared_flags())
        return program

    def run_example(self, program, *words, **how):
        how = {"capture_output": True, "timeout": 60, "env": with_library()} | how
        return subprocess.run([program, *words], **how)


class Examples(ExampleCase):
    def setUp(self):
        super().setUp()
        self.two = self.write("two", TWO)

    def test_the_version_for_pkg_config_is_that_of_the_repository(self):
        self.require("pkg-config")
        self.assertEqual(pkg_config("--modversion"), (TOP / "VERSION").read_text().strip())

    def test_the_example_prints_the_documents_of_a_store(self):
        done = self.run_example(self.example("example.c"), self.two)
        self.assertEqual((done.returncode, done.stdout), (0, b"0: abc\n1: de\n"), done.stderr)

    def test_the_example_of_the_header_prints_one_document(self):
        done = self.run_example(self.example("first.c"), "1", input=TWO)
        self.assertEqual((done.returncode, done.stdout), (0, b"de"), done.stderr)

    def test_the_example_of_an_outline_prints_documents(self):
        program = self.example("outline.c")
        done = self.run_example(program, "1", "0", input=TWO)
        self.assertEqual((done.returncode, done.stdout), (0, b"deabc"), done.stderr)
        self.assertNotEqual(self.run_example(program, "2", input=TWO).returncode, 0, "no document")

    def test_the_example_fails_where_it_cannot_print(self):
        """To a full disk, of a file that is no store, and of one that isn't there."""
        program = self.example("example.c")
        with open("/dev/full", "wb") as full:
            full_output = {"stdout": full, "capture_output": False, "stderr": subprocess.DEVNULL}
            self.assertNotEqual(self.run_example(program, self.two, **full_output).returncode, 0, "a full disk")
        self.assertNotEqual(self.run_example(program, HEX).returncode, 0, "no store")
        self.assertNotEqual(self.run_example(program, self.folder / "none").returncode, 0, "no file")

    def test_the_example_of_the_header_fails_where_it_cannot_print(self):
        """To a full disk, and of a document that isn't there."""
        program = self.example("first.c")
        with open("/dev/full", "wb") as full:
            full_output = {"stdout": full, "capture_output": False, "stderr": subprocess.DEVNULL, "input": TWO}
            self.assertNotEqual(self.run_example(program, "1", **full_output).returncode, 0, "a full disk")
        self.assertNotEqual(self.run_example(program, "2", input=TWO).returncode, 0, "no document")
