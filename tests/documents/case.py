"""What the rules share."""

from __future__ import annotations

import re
import unittest
from collections.abc import Iterable

from documents.pages import files, text_of
from harness import TOP

HEADER = TOP / "bindings/c/include/zevkhadun.h"
SOURCES = list(files("crates", "tests", "tools", "bindings", "examples", "bench", ".ci"))
PATHS = [str(path.relative_to(TOP)) for path in SOURCES]
CRATES = set(re.findall(r"^(\w+)(?: \w+)?:", text_of(TOP / "crates.txt"), re.M))


class Rules(unittest.TestCase):
    def assert_no_faults(self, faults: Iterable[str]) -> None:
        """A rule found nothing."""
        found = list(faults)
        if found:
            self.fail("\n".join([f"{len(found)} faults", *found]))

    def assert_looked_at(self, count: int, least: int, what: str) -> None:
        """A rule looked at as many things as there are at least."""
        self.assertGreaterEqual(count, least, f"the rule found few {what}")
