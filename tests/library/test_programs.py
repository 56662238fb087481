"""Programs over the library by two compilers, in C11 and C++17, with and without sanitizers."""

import subprocess

from library.compiling import ARRAYS, COMPILERS, HEX, SOURCES, WARNINGS, CompilerCase, names_in, prefix, wrapped

PROGRAMS = ("stress.c", "writing.c", "nulls.c", "getting.c", "outlines.c", "ranges.c", "checking.c")


class ByGcc(CompilerCase):
    def run_programs(self, in_cpp):
        for name in PROGRAMS:
            with self.subTest(name):
                self.succeed(self.compiled_by(self.compiler, name, in_cpp), HEX)

    def test_programs_in_c_end_well(self):
        self.run_programs(in_cpp=False)

    def test_programs_in_cpp_end_well(self):
        self.run_programs(in_cpp=True)

    def test_the_proved_calls_get_arrays_that_are_there(self):
        """Also where NULL is given to the library."""
        program = self.folder / "program"
        names = names_in(ARRAYS, r"zevk_proved_[a-z_]+")
        self.assertTrue(names, "there is no proved call")
        parts = [SOURCES / "nulls.c", SOURCES / "checked.c", self.arrays_object(self.compiler)]
        self.succeed(
            self.compiler.c, "-std=c11", *self.compiler.flags(), *WARNINGS, f"-I{prefix() / 'include'}", f"-I{SOURCES}",
            "-o", program, *wrapped(names), *parts, prefix() / "lib/libzevkhadun.a",
        )
        self.succeed(program, HEX)


class ManyBlocks(CompilerCase):
    def test_documents_of_ten_million_blocks_are_got_by_each_layer(self):
        self.succeed(self.compiled_by(self.compiler, "outlines.c", in_cpp=False), HEX, "10000000")


class ByClang(ByGcc):
    compiler = COMPILERS[1]


class ByGccUnderSanitizers(ByGcc):
    compiler = COMPILERS[2]

    def test_sanitizers_report_a_wrong_program(self):
        """A read past an array ends the program: the sanitizers are there, and are heeded."""
        source = self.write("wrong.c", b"int main(int n, char **v) { int a[2] = {n, n}; (void)v; return a[n + 1]; }\n")
        program = self.folder / "wrong"
        self.succeed(self.compiler.c, *self.compiler.flags(), "-o", program, source)
        done = subprocess.run([program], capture_output=True, timeout=60)
        self.assertNotEqual(done.returncode, 0, "the read past the array is not reported")
        self.assertTrue(done.stderr, "there is no report")


class ByClangUnderSanitizers(ByGccUnderSanitizers):
    compiler = COMPILERS[3]
