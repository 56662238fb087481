"""Threads, memory and fuzzed inputs: programs over the library under valgrind and under sanitizers."""

from harness import TOP
from library.compiling import HEX, SANITIZERS, SOURCES, LibraryCase, default_compiler, wrapped

DEBUG = ["-std=c11", "-g", "-O1"]
CALLS = TOP / "tests/library/fuzz/calls.c"
CORPUS = TOP / "tests/library/fuzz/corpus.hex"
VALGRIND = ("valgrind", "-q", "--error-exitcode=1")


class Threads(LibraryCase):
    """Eight threads read by one table."""

    def test_eight_threads_read_under_the_sanitizer_of_threads(self):
        linked = ("-fsanitize=thread", "-pthread")
        self.require_library("clang", *linked)
        self.succeed(self.compiled(["clang", *DEBUG], SOURCES / "threads.c", linked), HEX)

    def test_eight_threads_read_under_helgrind(self):
        self.require("gcc", "valgrind")
        program = self.compiled(["gcc", *DEBUG], SOURCES / "threads.c", ("-pthread",))
        self.succeed(*VALGRIND, "--tool=helgrind", program, HEX)


class Memory(LibraryCase):
    def test_gets_end_well_under_valgrind(self):
        self.require("gcc", "valgrind")
        program = self.compiled(["gcc", *DEBUG], SOURCES / "gets.c")
        self.succeed(*VALGRIND, "--leak-check=full", program, HEX)

    def test_each_allocation_is_refused_in_turn(self):
        linked = tuple(wrapped(["malloc", "realloc", "free"]))
        self.succeed(self.compiled([default_compiler(), *DEBUG], SOURCES / "memory.c", linked), HEX)


class FuzzedInputs(LibraryCase):
    """Every input that reached an edge of its own when the library was fuzzed (tools/fuzz/run.sh)."""

    def test_fuzzed_inputs_end_well_under_sanitizers(self):
        self.require_library("gcc", *SANITIZERS)
        self.succeed(self.compiled(["gcc", *DEBUG, "-DREPLAY"], CALLS, SANITIZERS), CORPUS)

    def test_fuzzed_inputs_end_well_under_valgrind(self):
        self.require("gcc", "valgrind")
        program = self.compiled(["gcc", *DEBUG, "-DREPLAY"], CALLS)
        self.succeed(*VALGRIND, "--leak-check=full", program, CORPUS)
