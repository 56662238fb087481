"""The texts of the documents: the theorem, versions, words, widths and figures."""

from __future__ import annotations

import re
from collections.abc import Iterator
from pathlib import Path

from documents.case import Rules
from documents.pages import at, documents, text_of
from harness import TOP

THEOREM = TOP / "docs/VERIFICATION.md"
# Pages whose tables are narrow too: they are read in a terminal, beside the code. Others have rows of figures.
NARROW = (
    *("README.md", "CONTRIBUTING.md", "RELEASING.md", "SECURITY.md", "docs/C.md", "docs/CONTRACTS.md"),
    *("docs/DECISIONS.md", "docs/PYTHON.md", "docs/RATTLE.md", "docs/RUST.md", "docs/SCRIPTS.md"),
    *("docs/VERIFICATION.md", "docs/WHY.md"),
)
BUILD = TOP / "bindings/c/build.sh"
VERSIONS = {
    "crates/zevkhadun/src/*.rt": r'\.version\("([^" ]*)[^"]*"\)',
    "bindings/rust/Cargo.toml": r'^version = "([^"]*)"',
    "bindings/rust/Cargo.lock": r'name = "zevkhadun"\nversion = "([^"]*)"',
    "bindings/c/include/zevkhadun_file.h": r'^#define ZEVK_VERSION "([^"]*)"',
    "bindings/python/pyproject.toml": r'^version = "([^"]*)"',
    "bindings/python/src/zevkhadun/__init__.py": r'^__version__ = "([^"]*)"',
    "CHANGELOG.md": r"\A.*?^## (\S+)",
}


def theorems_of(text: str) -> list[list[str]]:
    """The texts between the markers of the theorem, each as its words."""
    found = re.findall(r"<!-- theorem -->\n(.*?)<!-- end of theorem -->", text, re.S)
    return [re.sub(r"^> ?", "", one, flags=re.M).split() for one in found]


def theorem_faults(path: Path, home: list[list[str]]) -> Iterator[str]:
    """What is wrong with the theorem on a page."""
    text = text_of(path)
    found = theorems_of(text)
    if any([one] != home for one in found):
        yield at(path, 1, "another text of the theorem")
    if len(re.findall(r"For\s+every\s+list\s+of", text)) != len(found):
        yield at(path, 1, "a theorem without its markers")


def version_faults(pattern: str, form: str, version: str) -> Iterator[str]:
    """What is wrong with the versions that the files of a pattern have in a form."""
    found = [(path, one) for path in TOP.glob(pattern) for one in re.findall(form, text_of(path), re.M | re.S)]
    if not found:
        yield f"{pattern}:1: no version"
    yield from (at(path, 1, f"version {one}, not {version}") for path, one in found if one != version)


class Texts(Rules):
    def test_the_theorem_has_one_text_wherever_it_stands(self):
        home = theorems_of(text_of(THEOREM))
        self.assertEqual(len(home), 1, "theorems in docs/VERIFICATION.md")
        self.assert_no_faults(fault for path in documents() for fault in theorem_faults(path, home))

    def test_all_versions_are_that_of_the_file_version(self):
        version = text_of(TOP / "VERSION").strip()
        self.assert_no_faults(
            fault for pattern, form in VERSIONS.items() for fault in version_faults(pattern, form, version)
        )

    def test_the_version_for_pkg_config_is_taken_from_the_file_version(self):
        self.assertNotRegex(text_of(BUILD), re.compile(r"^Version: *\d", re.M))
        self.assertIn("VERSION", text_of(BUILD))

    def test_no_line_is_longer_than_120_columns(self):
        """Rows of tables aside, but for the pages that are narrow, and the page that bench/plot.py writes."""
        narrow = {TOP / name for name in NARROW}
        narrow |= {path for folder in ("docs/contracts", "bindings") for path in (TOP / folder).rglob("*.md")}
        lines = [
            (path, number, line)
            for path in documents() if path.parent.name != "plots"
            for number, line in enumerate(text_of(path).splitlines(), 1)
        ]
        self.assert_no_faults(
            at(path, number, f"{len(line)} columns")
            for path, number, line in lines
            if len(line) > 120 and (path in narrow or not line.startswith("|"))
        )
