"""The header is compared with the crate that it declares, and with the calls before the proved ones.

The exported functions by name, and each parameter by name and type; the fields of the structs; the numbers of refusals;
and the functions that take an array with those of bindings/c/src/null_arrays.c.
"""

from __future__ import annotations

import re
import unittest
from collections.abc import Iterator

from harness import TOP
from library.compiling import ARRAYS, HEADER

# How C spells what a parameter of Rattle is, by the name of the parameter.
NUMBERS = {"u8": "uint8_t", "u32": "uint32_t", "DocId": "uint32_t", "usize": "size_t"}
STRUCTS = {
    "Row": "zevk_block",
    "StoreHead": "zevk_head",
    "BlockPlace": "zevk_block_place",
    "Fault": "zevk_fault",
    "Place": "zevk_place",
    "Writer": "zevk_writer",
}
TYPES = NUMBERS | STRUCTS
# Two refusals have other names in C.
RENAMED = {"Damaged": "DamagedDocument", "InvalidArgument": "NoDocument"}


def parameter(name: str, kind: str) -> list[str]:
    """The parameters in C of one of Rattle: none, one, or a pointer and a length."""
    if kind == "Global":
        return []
    if found := re.fullmatch(r"&(mut )?\[(\w+)\]", kind):
        const = "" if found[1] else "const "
        return [f"{const}{TYPES[found[2]]} *{name}", f"size_t {name}_len"]
    if found := re.fullmatch(r"&(mut )?(\w+)", kind):
        const = "" if found[1] else "const "
        return [f"{const}{TYPES[found[2]]} *{name}"]
    return [f"{NUMBERS[kind]} {name}"]


def exported(text: str) -> Iterator[str]:
    """The declarations in C of the exported functions."""
    form = r'pub extern "C" fn (\w+)\(([^)]*)\)(?: -> (\w+))?'
    for name, parameters, result in re.findall(form, text):
        pairs = [pair.split(":") for pair in parameters.split(",") if pair.strip()]
        words = [word for pair in pairs for word in parameter(pair[0].strip(), pair[1].strip())]
        yield f"{NUMBERS[result] if result else 'void'} {name}({', '.join(words)})"


def declared(text: str) -> Iterator[str]:
    """The declarations of the header."""
    for result, name, parameters in re.findall(r"^(\w+) (zevk_\w+)\(([^)]*)\);", text, re.M):
        yield f"{result} {name}({' '.join(parameters.split())})"


def proved(text: str) -> Iterator[str]:
    """The proved calls that a file in C declares, under the names by which users call them."""
    for declaration in declared(text):
        if "zevk_proved_" in declaration:
            yield declaration.replace("zevk_proved_", "zevk_")


def fields(name: str, bodies: dict[str, str]) -> Iterator[str]:
    """The fields of a struct of the crate, as the header has them: those of a struct in it stand in its place."""
    for field, kind in re.findall(r"pub (\w+): (\w+),", bodies[name]):
        if kind in NUMBERS:
            yield f"{NUMBERS[kind]} {field}"
        else:
            yield from fields(kind, bodies)


def structs(text: str) -> Iterator[tuple[str, tuple[str, ...]]]:
    """The structs of the crate that C sees, as the header has them."""
    form = r"#\[repr\(C\)\]\n#\[derive[^\n]*\npub struct (\w+) \{\n(.*?)\n\}"
    bodies = dict(re.findall(form, text, re.S))
    for name in bodies.keys() - {"LayerMarks"}:
        yield STRUCTS[name], tuple(fields(name, bodies))


def declared_structs(text: str) -> Iterator[tuple[str, tuple[str, ...]]]:
    """The structs of the header."""
    for name, body in re.findall(r"typedef struct (\w+) \{\n(.*?)\n\} \1;", text, re.S):
        yield name, tuple(re.findall(r"^ *(\w+ \w+);", body, re.M))


def refusals(text: str) -> Iterator[tuple[str, int]]:
    """The numbers of the crate's refusals, and those of a store's."""
    pairs = re.findall(r"^    (\w+) = (\d+),", text, re.M)
    pairs += re.findall(r"StoreError::(\w+)(?:\(_\))? => (\d+),", text)
    for name, number in pairs:
        name = RENAMED.get(name, name)
        yield "ZEVK_" + re.sub(r"(?<=[a-z])(?=[A-Z])", "_", name).upper(), int(number)


class Header(unittest.TestCase):
    def setUp(self):
        self.header = HEADER.read_text()
        folder = TOP / "crates/store_c/src"
        below = ("layered_index/src/row.rt", "layered_index/src/lower_layers.rt", "store_reader/src/store_head.rt")
        sources = [*sorted(folder.glob("*.rt")), *(TOP / "crates" / path for path in below)]
        self.source = "\n".join(path.read_text() for path in sources)
        self.errors = (TOP / "crates/store_base/src/error.rt").read_text()

    def assert_alike(self, in_header, in_crate):
        """Both have the same members, more than two."""
        in_header, in_crate = set(in_header), set(in_crate)
        self.assertEqual(in_header, in_crate)
        self.assertGreater(len(in_header), 2)

    def test_the_functions_are_those_of_the_crate(self):
        self.assert_alike(declared(self.header), exported(self.source))

    def test_the_structs_are_those_of_the_crate(self):
        self.assert_alike(declared_structs(self.header), structs(self.source))

    def test_the_numbers_of_refusals_are_those_of_the_crate(self):
        numbers = {name: int(number) for name, number in re.findall(r"(ZEVK_\w+) = (\d+)", self.header)}
        known = dict(refusals(self.source + self.errors)) | {"ZEVK_DONE": 0}
        self.assert_alike(numbers.items(), [(name, known.get(name)) for name in numbers])
        self.assertEqual({name for name, _ in refusals(self.source)} - set(numbers), set(), "not in the header")

    def test_the_calls_with_arrays_are_made_before_the_proved_ones(self):
        arrays = [function for function in declared(self.header) if "_len" in function]
        self.assert_alike(arrays, proved(ARRAYS.read_text()))
