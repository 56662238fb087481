"""Runs the shell sessions of the documents.

A block is run if the line before it is <!-- run by: tests/sessions/test_sessions.py -->. Lines that begin with '$ ' are
commands, and what follows each of them is what it prints. A block without such lines is a script, which must succeed;
the marker may say what it prints, as <!-- run by: tests/sessions/test_sessions.py; prints: one | two -->.
"""

from __future__ import annotations

import os
import re
import subprocess
from collections.abc import Iterator
from dataclasses import dataclass
from pathlib import Path

from documents import pages
from harness import PROGRAM, FolderCase

# The pages of docs/ that have sessions.
WITH_SESSIONS = ("CLI", "LOG", "OPERATIONS", "RATTLE", "RECIPES", "SCRIPTS")
MARKER = re.compile(r"<!-- run by: tests/sessions/test_sessions\.py(?:; prints: (.*?))? -->")


@dataclass(frozen=True)
class Step:
    """A command of a page, and the lines that it prints; None where these are not shown."""

    line: int
    command: str
    lines: list[str] | None


def steps_of(line: int, block: list[str], prints: str | None) -> Iterator[Step]:
    """The commands of a block."""
    if not any(line.startswith("$ ") for line in block):
        yield Step(line, "\n".join(block), prints.split(" | ") if prints else None)
        return
    for part in re.split(r"^\$ ", "\n".join(block), flags=re.M)[1:]:
        command, *lines = part.rstrip("\n").split("\n")
        yield Step(line, command, lines)


def steps(page: Path) -> list[Step]:
    """The commands of a page. Their blocks lose the indentation that all lines of the block have."""
    found = []
    for block in pages.blocks(page):
        if marker := MARKER.fullmatch(block.marker):
            depth = min(len(line) - len(line.lstrip()) for line in block.lines if line.strip())
            found += steps_of(block.line, [line[depth:] for line in block.lines], marker[1])
    return found


class Sessions(FolderCase):
    def begin_page(self) -> None:
        """Makes the folder of a page, in which the program, the crates and the documents are."""
        self.folder = self.new_folder()
        (self.folder / "zevkhadun").symlink_to(PROGRAM.path())
        for name in ("crates", "docs"):
            (self.folder / name).symlink_to(pages.TOP / name)

    def fault(self, step: Step) -> str:
        """What is wrong with a step; nothing if it prints what the page shows, or succeeds where that isn't shown."""
        names = os.environ | {"PATH": f"{self.folder}:{os.environ['PATH']}"}
        shell = ["bash", "-e", "-o", "pipefail", "-c", step.command]
        done = subprocess.run(shell, cwd=self.folder, env=names, capture_output=True, text=True, timeout=900)
        printed = done.stdout + done.stderr
        if step.lines is None:
            return printed or f"status {done.returncode}" if done.returncode else ""
        if "\n".join(step.lines) in (done.stdout.rstrip("\n"), printed.rstrip("\n")):
            return ""
        return f"printed, with status {done.returncode}:\n{printed}"

    def run_page(self, page: Path) -> int:
        """Runs the commands of a page, and returns how many there are."""
        self.begin_page()
        found = steps(page)
        for step in found:
            with self.subTest(pages.at(page, step.line, step.command)):
                self.assertEqual(self.fault(step), "")
        return len(found)

    def test_each_command_prints_what_its_page_shows(self):
        counts = {}
        for page in pages.documents():
            counts[str(page.relative_to(pages.TOP))] = self.run_page(page)
        for name in ("README.md", *(f"docs/{name}.md" for name in WITH_SESSIONS)):
            self.assertTrue(counts.get(name), f"{name} has no session")
