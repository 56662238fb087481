#!/usr/bin/env python3
"""Writes every list of the library's errors from one table, bindings/refusals.txt.

usage: refusals.py [--check]

The lists are the enums of the headers, the texts of the library with their definition, those of files by path, Python's
exceptions, and Rust's enum.
With --check nothing is written: each list that differs from the table is named, and the status is 1.
"""

from __future__ import annotations

import re
import sys
from dataclasses import dataclass
from pathlib import Path
from typing import Callable, List, Tuple

TOP = Path(__file__).resolve().parent.parent
TABLE = TOP / "bindings/refusals.txt"
KINDS = ("file", "call", "path")
# Exceptions of Python that are errors of another kind, too.
BASES = {"NoDocument": "IndexError", "NoMemory": "MemoryError"}


@dataclass(frozen=True)
class Refusal:
    """A row of the table."""

    number: int
    kind: str
    name: str
    text: str

    @property
    def type_name(self) -> str:
        """The name as a type of Python or Rust has it."""
        return "".join(word.capitalize() for word in self.name.split("_"))

    @property
    def sentence(self) -> str:
        """The text as a sentence."""
        return self.text[0].upper() + self.text[1:] + "."


def table() -> List[Refusal]:
    """The rows of the table, in the order of their numbers."""
    rows = []
    for line in TABLE.read_text().splitlines():
        if line.startswith("#"):
            continue
        number, kind, name, text = line.split(None, 3)
        rows.append(Refusal(int(number), kind, name, text))
    numbers = [row.number for row in rows]
    if numbers != sorted(set(numbers)) or any(len(row.text.encode()) >= 64 or row.kind not in KINDS for row in rows):
        sys.exit(f"{TABLE.name}: the numbers are not in order, a kind is unknown, or a text has 64 bytes or more")
    return rows


def header(rows: List[Refusal]) -> str:
    """The enum's values of the header."""
    width = max(len(f"ZEVK_{row.name} = {row.number},") for row in rows)
    lines = []
    for row in rows:
        value = f"ZEVK_{row.name} = {row.number}" + ("," if row is not rows[-1] else "")
        text = ("file: " if row.kind == "file" else "") + row.text
        lines.append(f"    {value:{width}}  /* {text} */")
    return "\n".join(lines)


def cases(rows: List[Refusal]) -> str:
    """The cases of the switch over all errors, in C."""
    return "\n".join(f'    case ZEVK_{row.name}: return "{row.text}";' for row in rows)


def texts(rows: List[Refusal]) -> str:
    """The arms of the library's match."""
    return "\n".join(f'        {row.number} => "{row.text}",' for row in rows)


def definition(rows: List[Refusal]) -> str:
    """The cases of the definition that the library's clause cites."""
    return "\n".join(f'    if number == {row.number} then codes "{row.text}" else' for row in rows)


def exceptions(rows: List[Refusal]) -> str:
    """Python's classes, and the class of each number."""
    parts = []
    for row in rows[1:]:
        bases = ", ".join(["Refused", *filter(None, [BASES.get(row.type_name)])])
        parts.append(f'class {row.type_name}({bases}):\n    """{row.sentence}"""\n\n    number = {row.number}\n')
    return "\n\n".join(parts)


def variants(rows: List[Refusal]) -> str:
    """The variants of Rust's enum."""
    return "\n".join(f"    /// {row.sentence}\n    {row.type_name}," for row in rows[1:])


def numbers(rows: List[Refusal]) -> str:
    """The variant of each number, in Rust."""
    return "\n".join(f"            {row.number} => Refusal::{row.type_name}," for row in rows[1:])


def numbers_of(rows: List[Refusal]) -> str:
    """The number of each variant, in Rust."""
    return "\n".join(f"            Refusal::{row.type_name} => {row.number}," for row in rows[1:])


def texts_of(rows: List[Refusal]) -> str:
    """The text of each variant, in Rust."""
    return "\n".join(f'            Refusal::{row.type_name} => "{row.text}",' for row in rows[1:])


@dataclass(frozen=True)
class Listing:
    """A place that lists errors: what stands before it and after it in its file, how it is made, and of which kinds."""

    path: str
    before: str
    after: str
    made: Callable[[List[Refusal]], str]
    kinds: Tuple[str, ...] = ("file", "call")

    def wanted(self, text: str, rows: List[Refusal]) -> str:
        """The file's text with this list as the table has it."""
        pattern = f"({self.before}\n).*?(\n{self.after})"
        made = self.made([row for row in rows if row.kind in self.kinds])
        found, count = re.subn(pattern, lambda m: m[1] + made + m[2], text, count=1, flags=re.S)
        if not count:
            sys.exit(f"{self.path}: no list after {self.before!r}")
        return found


CRATE = "crates/store_c"
RUST = "bindings/rust/src/error.rs"
PYTHON = "bindings/python/src/zevkhadun/refusals.py"
LISTINGS = [
    Listing("bindings/c/include/zevkhadun.h", r"enum zevk_refusal \{", r"\};", header),
    Listing("bindings/c/include/zevkhadun_file.h", r"enum zevk_path_error \{", r"\};", header, ("path",)),
    Listing("bindings/c/src/zevkhadun_file.c", r"    switch \(error\) \{", r"    default:", cases, KINDS),
    Listing(f"{CRATE}/src/refusal_text.rt", r"    match number \{", r'        _ => "unknown', texts),
    Listing(f"{CRATE}/specs/Texts.antt", r"refusal_text number =", '    codes "unknown', definition),
    Listing(PYTHON, r"# From refusals\.txt:\n", r"\n# End of refusals\.txt", exceptions),
    Listing(RUST, r"pub enum Refusal \{", r"    /// A number that", variants),
    Listing(RUST, r"        match number \{", r"            other => Refusal::Other", numbers),
    Listing(RUST, r"u32 \{\n        match self \{", r"            Refusal::Other\(number\)", numbers_of),
    Listing(RUST, r"str \{\n        match self \{", r'            Refusal::Other\(_\) => "', texts_of),
]


def main(words: List[str]) -> int:
    """Writes the lists, or compares them."""
    if words not in ([], ["--check"]):
        print(__doc__, file=sys.stderr)
        return 2
    rows = table()
    differ = 0
    for listing in LISTINGS:
        path = TOP / listing.path
        text = path.read_text()
        wanted = listing.wanted(text, rows)
        if wanted == text:
            continue
        differ += 1
        if words:
            print(f"{listing.path}: the list after {listing.before!r} is not that of {TABLE.name}")
        else:
            path.write_text(wanted)
    print(f"refusals: {len(rows)} errors, {len(LISTINGS)} lists, {differ} {'differ' if words else 'written'}")
    return 1 if words and differ else 0


if __name__ == "__main__":
    sys.exit(main(sys.argv[1:]))
