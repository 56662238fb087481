"""The package for Rust: its tests, its documents, its examples, and what is packaged of it."""

import os
import re
import subprocess

from harness import TOP
from library.compiling import SECONDS, LibraryCase, prefix
from packages.cargo import PACKAGE, built_test, environment, example, run_cargo, target

WORDS = b"3 documents, [98, 97, 110, 97, 110, 97]\n"
# A program that needs the package alone.
PROGRAM = """
fn main() -> Result<(), zevkhadun::Error> {
    let mut writer = zevkhadun::FileWriter::create("packaged.store")?;
    writer.put(b"packaged")?;
    writer.publish()
}
"""
MANIFEST = """
[package]
name = "program"
version = "0.1.0"
edition = "2021"

[dependencies]
zevkhadun = {{ path = "{path}" }}
"""


def without_prefix() -> dict[str, str]:
    """The environment of cargo without the library of the repository."""
    return {name: value for name, value in environment().items() if name != "ZEVKHADUN_PREFIX"}


class RustCase(LibraryCase):
    def setUp(self):
        super().setUp()
        self.require("cargo")


class Rust(RustCase):
    def test_the_tests_of_the_package_pass(self):
        """Those of each file of tests, and the code of each document."""
        passed = [int(count) for count in re.findall(r"^test result: ok\. (\d+) passed", run_cargo("test"), re.M)]
        programs = list((PACKAGE / "tests").glob("*.rs"))
        self.assertEqual(len(passed), len(programs) + 2, "the tests inside, those of each program, and the documents")
        self.assertGreater(min(passed[1:]), 4)

    def test_clippy_finds_nothing(self):
        self.require("cargo-clippy")
        run_cargo("clippy", "--all-targets", "--", "-D", "warnings")

    def test_the_sources_are_laid_out(self):
        self.require("rustfmt")
        self.succeed("cargo", "fmt", "--check", cwd=PACKAGE)

    def test_the_documents_have_no_warning(self):
        run_cargo("doc", "--no-deps")
        self.assertTrue((target() / "doc/zevkhadun/index.html").is_file())

    def test_no_file_and_no_line_of_the_sources_is_long(self):
        for path in [*PACKAGE.glob("*.rs"), *PACKAGE.glob("*/*.rs")]:
            lines = path.read_text().splitlines()
            self.assertLess(len(lines), 400, path)
            self.assertLessEqual(max(map(len, lines)), 120, path)

    def test_valgrind_finds_no_fault_in_reads_of_any_bytes(self):
        self.require("valgrind")
        words = ["--quiet", "--error-exitcode=9", "--leak-check=full", "--errors-for-leak-kinds=definite"]
        for name in ("stores", "without_check"):
            printed = self.succeed("valgrind", *words, built_test(name), "--test-threads=1", cwd=PACKAGE)
            self.assertRegex(printed.decode(), r"test result: ok\. \d+ passed", name)


class Examples(RustCase):
    def test_the_words_of_the_documents_are_printed(self):
        self.assertEqual(self.succeed(example("words")), WORDS)

    def print(self, file, **how):
        """Runs the program that prints a store."""
        how = {"stdout": subprocess.PIPE, "stderr": subprocess.PIPE, "timeout": SECONDS} | how
        return subprocess.run([example("print"), self.write("a.store", file)], **how)

    def three(self):
        """A store of three documents in one block, by the package itself."""
        subprocess.run([example("pack"), "three.store"], cwd=self.folder, input=b"abc\n\nde", check=True)
        return self.read("three.store")

    def test_a_store_is_printed(self):
        done = self.print(self.three())
        self.assertEqual((done.returncode, done.stdout, done.stderr), (0, b"0: abc\n1: \n2: de\n", b""))

    def test_damaged_documents_are_reported_and_the_others_printed(self):
        file = bytearray(self.three())
        # Where the second document begins.
        file[9:13] = b"\xff" * 4
        done = self.print(bytes(file))
        self.assertEqual((done.returncode, done.stdout), (1, b"2: de\n"))
        self.assertEqual(done.stderr, b"print: document 0 is damaged\nprint: document 1 is damaged\n")

    def test_a_full_disk_and_a_file_of_another_kind_are_errors(self):
        with open("/dev/full", "wb") as full:
            done = self.print(self.three(), stdout=full)
        self.assertEqual((done.returncode, done.stderr), (1, b"print: No space left on device (os error 28)\n"))
        done = self.print(b"no store")
        self.assertEqual((done.returncode, done.stderr), (1, b"print: the file is shorter than a footer\n"))


class Packaged(RustCase):
    def unpacked(self):
        """The package, in a folder of its own."""
        self.succeed("bash", PACKAGE / "package.sh", prefix(), self.folder / "dist", env=without_prefix())
        version = (TOP / "VERSION").read_text().strip()
        name = f"zevkhadun-{version}"
        self.assertEqual(os.listdir(self.folder / "dist"), [f"{name}.crate"])
        self.succeed("tar", "-xzf", self.folder / "dist" / f"{name}.crate")
        return self.folder / name

    def test_a_program_needs_the_package_alone(self):
        package = self.unpacked()
        for name, path in (("LICENSE", TOP / "LICENSE"), ("lib/libzevkhadun.a", prefix() / "lib/libzevkhadun.a")):
            self.assertEqual((package / name).read_bytes(), path.read_bytes(), name)
        (self.folder / "src").mkdir()
        self.write("src/main.rs", PROGRAM.encode())
        self.write("Cargo.toml", MANIFEST.format(path=package).encode())
        names = without_prefix() | {"CARGO_TARGET_DIR": str(self.folder / "target")}
        self.succeed("cargo", "run", "--quiet", "--offline", env=names)
        printed = subprocess.run([example("print"), "packaged.store"], cwd=self.folder, capture_output=True, check=True)
        self.assertEqual(printed.stdout, b"0: packaged\n")

    def test_a_build_without_the_library_says_what_it_needs(self):
        names = without_prefix() | {"CARGO_TARGET_DIR": str(self.folder / "target")}
        command = ["cargo", "build", "--offline", "--locked"]
        done = subprocess.run(command, cwd=PACKAGE, env=names, capture_output=True, text=True, timeout=SECONDS)
        self.assertNotEqual(done.returncode, 0)
        self.assertIn("set ZEVKHADUN_PREFIX to the folder that bindings/c/build.sh made", done.stderr)
