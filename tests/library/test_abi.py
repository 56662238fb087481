"""The shared library has the functions and the layouts that bindings/c/abi.txt records, and no others.

A line of this table is a function or a constant, as a header has it, or a struct: its size, its alignment, and the
offset and the size of each field, in bytes. RELEASING.md says which lines may change.
"""

from __future__ import annotations

import re

from harness import TOP
from library.compiling import C, HEADER, PATH_HEADER, LibraryCase, default_compiler, names_in, prefix

TABLE = C / "abi.txt"
MAP = C / "zevkhadun.map"
SONAME = "libzevkhadun.so.1"
# A function that a header declares, a constant, and a struct that it defines. One that is only named has no layout.
FUNCTION = r"^((?:const )?\w+ \*?zevk_\w+\([^)]*\));"
CONSTANT = r"^#define (ZEVK_(?!VERSION)\w+ \S.*)$"
STRUCT = r"typedef struct (\w+) \{\n(.*?)\n\} \1;"
FIELD = r"^ *(?:const )?\w+ \*?(\w+)(?:\[\w+\])?;"
PROGRAM = """
#include <stdio.h>
#include <zevkhadun_file.h>

int main(void) {
%s
    return 0;
}
"""


def recorded() -> set[str]:
    """The lines of the table."""
    return {line for line in TABLE.read_text().splitlines() if line and not line.startswith("#")}


def headers() -> str:
    """The text of both headers for C."""
    return HEADER.read_text() + PATH_HEADER.read_text()


def declared() -> set[str]:
    """The lines of the functions and of the constants that the headers have."""
    functions = re.findall(FUNCTION, headers(), re.M)
    constants = [f"constant {one}" for one in re.findall(CONSTANT, headers(), re.M)]
    return {" ".join(one.split()) for one in functions + constants}


def printing(name: str, fields: list[str]) -> str:
    """The statements that print the line of a struct."""
    of_field = '    printf(" %s %%zu %%zu", offsetof({0}, %s), sizeof(({0} *)0)->%s);'.format(name)
    lines = [f'    printf("struct {name} %zu %zu:", sizeof({name}), _Alignof({name}));']
    return "\n".join([*lines, *(of_field % (field, field, field) for field in fields), '    puts("");'])


class Abi(LibraryCase):
    def layouts(self) -> set[str]:
        """The lines of the structs, as the compiler lays them out."""
        structs = [(name, re.findall(FIELD, body, re.M)) for name, body in re.findall(STRUCT, headers(), re.S)]
        self.assertGreater(len(structs), 5, "structs")
        source = self.write("layouts.c", (PROGRAM % "\n".join(printing(*one) for one in structs)).encode())
        program = self.folder / "layouts"
        self.succeed(default_compiler(), "-std=c11", f"-I{prefix() / 'include'}", "-o", program, source)
        return set(self.succeed(program).decode().splitlines())

    def test_functions_constants_and_layouts_are_those_that_are_recorded(self):
        self.assertEqual(declared() | self.layouts(), recorded())

    def test_the_library_exports_what_is_recorded_and_its_map_names_it(self):
        self.require("nm")
        names = sorted(re.findall(r"\*?(zevk_\w+)\(", "\n".join(recorded())))
        lines = self.succeed("nm", "-D", "--defined-only", prefix() / "lib" / SONAME).decode().splitlines()
        self.assertEqual(sorted(line.split()[2] for line in lines), names)
        self.assertEqual(names_in(MAP, r"^        (\w+);"), names)

    def test_the_name_of_the_library_and_what_it_needs_are_recorded(self):
        self.require("readelf")
        text = self.succeed("readelf", "-d", prefix() / "lib" / SONAME).decode()
        self.assertEqual(re.findall(r"\(SONAME\).*\[(.*)\]", text), [SONAME])
        self.assertEqual(re.findall(r"\(NEEDED\).*\[(.*)\]", text), ["libc.so.6"])
        self.assertIn(SONAME, (TOP / "RELEASING.md").read_text())
