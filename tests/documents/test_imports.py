"""A crate above docstore imports from docstore what it exports, and from the crates below it only the rest."""

from __future__ import annotations

import re
from collections.abc import Iterator

from documents.case import Rules
from documents.pages import at, text_of
from harness import TOP

LIBRARY = ("store_base", "layered_index", "store_format", "store_reader")
USE = re.compile(rf"^use ({'|'.join(LIBRARY)})::(?:\{{([^}}]*)\}}|(\w+));", re.M)


def exported() -> dict[str, set[str]]:
    """The names of each crate below docstore that it exports."""
    names: dict[str, set[str]] = {crate: set() for crate in LIBRARY}
    text = text_of(TOP / "crates/docstore/src/lib.rt")
    for crate, several, one in re.findall(r"^pub use (\w+)::(?:\{([^}]*)\}|(\w+));", text, re.M):
        if crate in names:
            names[crate].update(re.findall(r"\w+", several or one))
    return names


def above() -> list[str]:
    """The crates that stand on docstore."""
    lines = re.findall(r"^(\w+)(?: \w+)?:(.*)$", text_of(TOP / "crates.txt"), re.M)
    return [crate for crate, below in lines if "docstore" in below.split()]


def import_faults(names: dict[str, set[str]]) -> Iterator[str]:
    """Where a crate above docstore imports a name past it."""
    for crate in above():
        for path in sorted((TOP / "crates" / crate / "src").rglob("*.rt")):
            text = text_of(path)
            for use in USE.finditer(text):
                past = sorted(set(re.findall(r"\w+", use[2] or use[3])) & names[use[1]])
                if past:
                    line = text[:use.start()].count("\n") + 1
                    yield at(path, line, f"docstore exports {', '.join(past)}")


class Imports(Rules):
    def test_what_docstore_exports_is_imported_from_it(self):
        names = exported()
        self.assert_looked_at(sum(map(len, names.values())), 50, "exported names")
        self.assert_looked_at(len(above()), 10, "crates above docstore")
        self.assert_no_faults(import_faults(names))
