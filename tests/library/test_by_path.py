"""Stores by path: programs by two compilers, in C11 and C++17, under sanitizers and valgrind, and in threads."""

from library.compiling import ARRAYS, COMPILERS, GCC, PATHS, SOURCES, Compiler, CompilerCase, LibraryCase
from library.test_checkers import DEBUG, VALGRIND

PROGRAMS = ("by_path.c", "path_errors.c")


class ByPathCase(LibraryCase):
    def end_well(self, program, *before, after=()):
        """The program ends with status 0, in a new folder, and leaves no second file."""
        folder = self.new_folder()
        self.succeed(*before, program, folder, *after)
        left = [path.name for path in folder.rglob("*")]
        self.assertTrue(left, "the program writes nothing")
        self.assertEqual([name for name in left if name.endswith(".part")], [])


class ByGcc(ByPathCase, CompilerCase):
    def run_programs(self, in_cpp):
        for name in PROGRAMS:
            with self.subTest(name):
                self.end_well(self.compiled_by(self.compiler, name, in_cpp, (ARRAYS, *PATHS)))

    def test_programs_in_c_by_path_end_well(self):
        self.run_programs(in_cpp=False)

    def test_programs_in_cpp_by_path_end_well(self):
        self.run_programs(in_cpp=True)

    def test_a_program_with_the_classes_for_cpp_ends_well(self):
        self.require(self.compiler.cpp)
        sources = (ARRAYS, *PATHS)
        objects = tuple(self.compiled_source(self.compiler, source) for source in sources)
        self.end_well(self.linked_by_cpp("wrapper.cpp", objects))

    def linked_by_cpp(self, name, objects):
        """A program in C++17 that is linked with the library of C++."""
        command = [self.compiler.cpp, "-std=c++17", "-g", "-O1"]
        return self.compiled(command, SOURCES / name, self.compiler.sanitizers, objects)


class ByClang(ByGcc):
    compiler = COMPILERS[1]


class ByGccUnderSanitizers(ByGcc):
    compiler = COMPILERS[2]


class ByClangUnderSanitizers(ByGcc):
    compiler = COMPILERS[3]


class Threads(ByPathCase):
    """Eight threads share open files, and write stores of their own."""

    def test_eight_threads_share_files_under_the_sanitizer_of_threads(self):
        sanitizers = ("-fsanitize=thread",)
        self.require_library("clang", *sanitizers, "-pthread")
        compiler = Compiler("clang", "clang++", sanitizers)
        objects = tuple(self.compiled_source(compiler, source) for source in (ARRAYS, *PATHS))
        linked = (*sanitizers, "-pthread")
        self.end_well(self.compiled(["clang", *DEBUG], SOURCES / "threads_by_path.c", linked, objects))

    def test_eight_threads_share_files_under_helgrind(self):
        self.require("gcc", "valgrind")
        program = self.compiled(["gcc", *DEBUG], SOURCES / "threads_by_path.c", ("-pthread",))
        # Helgrind knows no atomic numbers, by which one thread lets the others know that it has made the outline.
        self.end_well(program, *VALGRIND, "--tool=helgrind", after=("made",))


class UnderValgrind(ByPathCase):
    def test_programs_by_path_end_well_under_valgrind(self):
        self.require("gcc", "valgrind")
        for name in PROGRAMS:
            with self.subTest(name):
                program = self.compiled_by(GCC, name, in_cpp=False, sources=())
                self.end_well(program, *VALGRIND, "--leak-check=full", "--track-fds=no")
