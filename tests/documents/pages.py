"""The pages of the repository: their lines, and their blocks of code with the marker before each."""

from __future__ import annotations

import os
from collections.abc import Iterator
from dataclasses import dataclass
from pathlib import Path

from harness import TOP

BUILT = {"out", "target", "dist", ".git", "__pycache__"}


@dataclass(frozen=True)
class Block:
    """A block of code: its first line, the first being 1, and the marker on the line before it."""

    line: int
    language: str
    lines: list[str]
    marker: str


def files(*folders: str) -> Iterator[Path]:
    """All files below these folders of the repository, without what is built."""
    for folder in folders:
        for here, inner, names in os.walk(TOP / folder):
            inner[:] = sorted(set(inner) - BUILT)
            yield from (Path(here, name) for name in sorted(names))


def documents() -> list[Path]:
    """All pages."""
    return [path for path in files(".") if path.suffix == ".md"]


def at(path: Path, line: int, text: str) -> str:
    """A message about a line, the first being 1."""
    return f"{path.relative_to(TOP)}:{line}: {text}"


def text_of(path: Path) -> str:
    """The text of a file; none of one that is missing or no text."""
    try:
        return path.read_text()
    except (OSError, UnicodeDecodeError):
        return ""


def kinds(lines: list[str]) -> list[str]:
    """For each line of a page: 'text', 'fence' for its marks, or 'fenced' or 'indented' for a line of code."""
    fenced, kind = False, "text"
    found: list[str] = []
    for number, line in enumerate(lines):
        before = lines[number - 1].strip() if number else ""
        if line.lstrip().startswith("```"):
            fenced, kind = not fenced, "fence"
        elif fenced:
            kind = "fenced"
        elif not line.strip():
            kind = "indented" if kind == "indented" else "text"
        else:
            begins = not before or before.startswith("<!--")
            is_code = line.startswith("    ") and (begins or kind == "indented")
            kind = "indented" if is_code else "text"
        found.append(kind)
    return found


def prose(path: Path) -> list[tuple[int, str]]:
    """The lines of a page that are no code, each with its number."""
    lines = text_of(path).splitlines()
    return [(i, line) for i, (line, kind) in enumerate(zip(lines, kinds(lines)), 1) if kind == "text"]


def blocks(path: Path) -> list[Block]:
    """The blocks of code of a page: from each line of code whose line before is none, to the last such line."""
    lines = text_of(path).splitlines()
    found, i = [], 0
    kind_of = kinds(lines)
    while i < len(lines):
        if kind_of[i] not in ("fence", "indented"):
            i += 1
            continue
        is_fence = kind_of[i] == "fence"
        inside = "fenced" if is_fence else "indented"
        last = next((j for j in range(i + 1, len(lines)) if kind_of[j] != inside), len(lines))
        language = lines[i].strip("` ") if is_fence else ""
        above = next((line for line in reversed(lines[:i]) if line.strip()), "")
        found.append(Block(i + 1, language, lines[i + is_fence:last], above.strip()))
        i = last + 1
    return found
