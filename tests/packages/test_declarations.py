"""What the package for Rust declares of the library is what the header declares, by name, order and type."""

from __future__ import annotations

import re
from collections.abc import Iterator

from harness import TOP, Case
from packages.cargo import PACKAGE

HEADER = TOP / "bindings/c/include/zevkhadun.h"
RAW = PACKAGE / "src/raw.rs"
# The types of the header, as Rust names them.
NUMBERS = {"uint8_t": "u8", "uint32_t": "u32", "size_t": "usize"}
TYPES = NUMBERS | {
    "zevk_block": "Block",
    "zevk_block_place": "BlockPlace",
    "zevk_fault": "Fault",
    "zevk_head": "Head",
    "zevk_place": "Place",
    "zevk_writer": "Writer",
}


def in_rust(parameter: str) -> str:
    """A parameter or a field of the header, in Rust; of a type that Rust does not declare, as it is."""
    const, kind, star, name = re.fullmatch(r"(const )?(\w+) (\*?)(\w+)", parameter).groups()
    pointer = ("*const " if const else "*mut ") if star else ""
    return f"{name}: {pointer}{TYPES.get(kind, kind)}"


def words_of(text: str) -> list[str]:
    """The parts between commas, without spaces around them and without an empty one."""
    return [" ".join(part.split()) for part in text.split(",") if part.strip()]


def functions_of_header(text: str) -> dict[str, tuple[list[str], str]]:
    """The parameters and the result of each function of the header, in Rust."""
    found = re.findall(r"^(\w+) (zevk_\w+)\(([^)]*)\);", text, re.M)
    return {
        name: ([in_rust(parameter) for parameter in words_of(parameters)], NUMBERS.get(result, ""))
        for result, name, parameters in found
    }


def functions_of_rust(text: str) -> dict[str, tuple[list[str], str]]:
    """The parameters and the result of each function that Rust declares."""
    found = re.findall(r"pub\(crate\) fn (zevk_\w+)\(([^)]*)\)(?:\s+-> (\w+))?;", text)
    return {name: (words_of(parameters), result) for name, parameters, result in found}


def structs_of_header(text: str) -> Iterator[tuple[str, list[str]]]:
    """The structs of the header that Rust declares too: the name and the fields, in Rust."""
    for name, body in re.findall(r"typedef struct (\w+) \{\n(.*?)\n\} \1;", text, re.S):
        if name in TYPES:
            yield TYPES[name], [in_rust(field) for field in re.findall(r"^ *(\w+ \w+);", body, re.M)]


def structs_of_rust(text: str) -> Iterator[tuple[str, list[str]]]:
    """The structs that Rust lays out as C does."""
    form = r"#\[repr\(C\)\]\n#\[derive[^\n]*\npub\(crate\) struct (\w+) \{\n(.*?)\n\}"
    for name, body in re.findall(form, text, re.S):
        yield name, words_of(body.replace("pub(crate) ", ""))


class Declarations(Case):
    def setUp(self):
        self.header, self.raw = HEADER.read_text(), RAW.read_text()

    def test_each_function_is_declared_as_in_the_header(self):
        of_header, of_rust = functions_of_header(self.header), functions_of_rust(self.raw)
        self.assertEqual(of_rust, {name: of_header.get(name) for name in of_rust})
        self.assertEqual(len(of_rust), self.raw.count("fn zevk_"))
        self.assertGreater(len(of_rust), 5)

    def test_each_function_that_is_called_is_declared(self):
        called = {
            name
            for path in (PACKAGE / "src").glob("*.rs")
            for name in re.findall(r"raw::(zevk_\w+)\(", path.read_text())
        }
        self.assertEqual(called, set(functions_of_rust(self.raw)))

    def test_each_struct_has_the_fields_of_the_header(self):
        of_rust = dict(structs_of_rust(self.raw))
        self.assertEqual(of_rust, dict(structs_of_header(self.header)))
        self.assertEqual(sorted(of_rust), sorted(set(TYPES.values()) - set(NUMBERS.values())))
        self.assertEqual(len(of_rust), self.raw.count("#[repr(C)]"))

    def test_the_layers_of_special_faults_are_those_of_the_header(self):
        of_header = dict(re.findall(r"#define ZEVK_(LAYER_\w+) \(?([^)\n]*)\)?$", self.header, re.M))
        of_rust = dict(re.findall(r"const (LAYER_\w+): u32 = (.*);", self.raw))
        self.assertEqual(of_rust, {name: value.replace("UINT32_MAX", "u32::MAX") for name, value in of_header.items()})
        self.assertEqual(len(of_rust), 2)
