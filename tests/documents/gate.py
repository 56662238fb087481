"""Which files the gate runs: its script, the suites that it names, and what these name."""

from __future__ import annotations

import re
from pathlib import Path

from documents.case import CRATES
from documents.pages import text_of
from harness import TOP

SCRIPT = TOP / ".ci/run"


def suites() -> list[str]:
    """The suites that the gate's script runs, which follow `tests/run.py` on its lines."""
    lines = [line for line in text_of(SCRIPT).splitlines() if not line.lstrip().startswith("#")]
    found = [words for line in lines for words in re.findall(r"tests/run\.py((?: \w+)+)", line)]
    return " ".join(found).split()


def files_of(suite: str) -> list[Path]:
    """The modules of a suite."""
    return sorted((TOP / "tests" / suite).glob("*.py"))


def text_of_suites(*names: str) -> str:
    """The text of the suites that the gate runs, of those that have one of these names."""
    return "\n".join(text_of(path) for suite in suites() if suite in names for path in files_of(suite))


def is_run(path: str) -> bool:
    """Whether the gate runs this file: a crate's, a test, a script, a program for C, a package's."""
    parts = path.split("/")
    if parts[0] == "crates":
        return parts[1] in CRATES
    if parts[0] == "tests" and len(parts) == 3:
        return parts[1] in suites()
    if parts[0] == "docs":
        return f'"{path}"' in text_of_suites("documents")
    if parts[:2] == ["bindings", "c"]:
        return f'"{parts[-1]}"' in text_of_suites("library", "packages", "answers")
    if parts[0] == "bindings":
        return f'"{"/".join(parts[:2])}"' in text_of_suites("packages")
    return path in text_of(SCRIPT)
