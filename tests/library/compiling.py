"""The library as it is installed, and programs that are compiled over it."""

from __future__ import annotations

import functools
import os
import re
import subprocess
from dataclasses import dataclass
from pathlib import Path

from harness import LIBRARY, TOP, FolderCase, kept_folder

C = TOP / "bindings/c"
SOURCES = C / "tests"
EXAMPLES = C / "examples"
HEADER = C / "include/zevkhadun.h"
PATH_HEADER = C / "include/zevkhadun_file.h"
# A store of 64 documents in 13 blocks, as hexadecimal text.
HEX = SOURCES / "words.hex"
ARRAYS = C / "src/null_arrays.c"
# The sources of the calls by path.
PATHS = tuple(sorted(path for path in (C / "src").glob("*.c") if path != ARRAYS))
WARNINGS = ("-Wall", "-Wextra", "-Wpedantic", "-Wconversion", "-Wshadow", "-Werror")
SECONDS = 900


@dataclass(frozen=True)
class Compiler:
    """Two compilers, for C and for C++, with the sanitizers under which their programs run."""

    c: str
    cpp: str
    sanitizers: tuple[str, ...] = ()

    def flags(self) -> tuple[str, ...]:
        """What both compilers get."""
        return ("-g", "-O1", *self.sanitizers)


SANITIZERS = ("-fsanitize=address,undefined", "-fno-sanitize-recover=all")
GCC, CLANG = Compiler("gcc", "g++"), Compiler("clang", "clang++")
COMPILERS = (GCC, CLANG, Compiler("gcc", "g++", SANITIZERS), Compiler("clang", "clang++", SANITIZERS))


def default_compiler() -> str:
    """The compiler of the environment, or the system's."""
    return os.environ.get("CC", "cc")


def names_in(path: Path, form: str) -> list[str]:
    """The names of a form that a file has, once."""
    return sorted(set(re.findall(form, path.read_text(), re.M)))


def wrapped(names: list[str]) -> list[str]:
    """What the linker gets so that calls of these functions go elsewhere."""
    return [f"-Wl,--wrap={name}" for name in names]


def output_of(*command: str | Path, **how) -> str:
    """Runs a command that has to end with 0, and returns what it printed."""
    done = subprocess.run(command, capture_output=True, text=True, timeout=SECONDS, **how)
    if done.returncode:
        raise AssertionError(f"{' '.join(map(str, command))}: {(done.stdout + done.stderr)[-4000:]}")
    return done.stdout


@functools.cache
def prefix() -> Path:
    """The folder in which the library is installed. It is made once, and removed at the end."""
    folder = kept_folder("library")
    output_of("bash", C / "build.sh", folder, LIBRARY.path())
    return folder


class LibraryCase(FolderCase):
    """A test of programs over the library."""

    def succeed(self, *command: str | Path, **how) -> bytes:
        """Runs a command that has to end with 0, and returns its output."""
        done = subprocess.run(command, capture_output=True, timeout=SECONDS, **{"cwd": self.folder} | how)
        text = (done.stdout + done.stderr).decode(errors="replace")
        self.assertEqual(done.returncode, 0, f"{' '.join(map(str, command))}: {text[-4000:]}")
        return done.stdout

    def require_library(self, compiler: str, *flags: str) -> None:
        """Skips the test unless the machine has the compiler and the libraries of these flags."""
        self.require(compiler)
        source = self.write("empty.c", b"int main(void) { return 0; }\n")
        command = [compiler, *flags, "-o", self.folder / "empty", source]
        if subprocess.run(command, capture_output=True).returncode:
            self.skipTest(f"there is no library for {compiler} {' '.join(flags)}")

    def compiled(
        self, command: list[str], source: Path, linked: tuple[str, ...] = (), objects: tuple[Path, ...] = ()
    ) -> Path:
        """A program over the static library. What these objects define is not taken from the library."""
        program = self.folder / source.stem
        part = self.folder / f"{source.stem}.o"
        include = f"-I{prefix() / 'include'}"
        compiling = [flag for flag in linked if not flag.startswith("-Wl,")]
        self.succeed(*command, *compiling, *WARNINGS, include, f"-I{SOURCES}", "-c", "-o", part, source)
        library = prefix() / "lib/libzevkhadun.a"
        self.succeed(command[0], *linked, "-o", program, part, *objects, library)
        return program

    def compiled_source(self, compiler: Compiler, source: Path) -> Path:
        """A source of the library, compiled as the programs are, in place of the library's."""
        path = self.folder / f"{source.stem}.o"
        include = f"-I{prefix() / 'include'}"
        self.succeed(compiler.c, "-std=c11", *compiler.flags(), *WARNINGS, include, "-c", "-o", path, source)
        return path

    def arrays_object(self, compiler: Compiler) -> Path:
        """The calls with arrays, compiled as the programs are, in place of the library's."""
        return self.compiled_source(compiler, ARRAYS)

    def compiled_by(self, compiler: Compiler, name: str, in_cpp: bool, sources: tuple[Path, ...] = (ARRAYS,)) -> Path:
        """A program of bindings/c/tests in C11 or C++17, with these sources of the library compiled as it is."""
        command = [compiler.c, "-std=c11", "-D_GNU_SOURCE", "-g", "-O1"]
        if in_cpp:
            command = [compiler.cpp, "-std=c++17", "-g", "-O1", "-x", "c++"]
        objects = tuple(self.compiled_source(compiler, source) for source in sources)
        return self.compiled(command, SOURCES / name, compiler.sanitizers, objects)

    def require_compiler(self, compiler: Compiler) -> None:
        """Skips the test unless the machine has both compilers and their sanitizers."""
        self.require_library(compiler.c, *compiler.sanitizers)
        self.require(compiler.cpp)


class CompilerCase(LibraryCase):
    """Tests of programs by one compiler, which the machine has to have."""

    compiler = COMPILERS[0]

    def setUp(self) -> None:
        super().setUp()
        self.require_compiler(self.compiler)
