"""The promises of docs/contracts: their lines, the calls with their clauses, and the links."""

from __future__ import annotations

import re
from collections.abc import Iterator
from dataclasses import dataclass
from functools import lru_cache
from pathlib import Path

from documents.pages import text_of
from harness import TOP

FOLDER = TOP / "docs/contracts"
# The page that has no promises, but bodies that were tried.
PLANTED = FOLDER / "planted.md"
KINDS = ("By ", "Premise: ", "Refused: ", "Shown by ", "Leaves ", "Seen by ")
LINK = re.compile(r"\[`([^`\]]+)`\]\[([^\]]+)\]")
DEFINITION = re.compile(r"^\[([^\]]+)\]:\s+(\S+)$", re.M)
# Where a function ends for these rules: at the next one.
NEXT_FUNCTION = re.compile(r"^ *(?:pub(?:\(crate\))? )?(?:extern \"C\" )?fn \w", re.M)


@dataclass(frozen=True)
class Promise:
    """A promise: its page, the line of its heading, its title, its sentence, and its items by their kinds."""

    page: Path
    line: int
    title: str
    sentence: str
    items: dict[str, list[str]]


@dataclass(frozen=True)
class Group:
    """Some calls, each with the label of its file, and after the colon the names of clauses and of definitions."""

    calls: list[tuple[str, str]]
    clauses: list[str]
    definitions: list[str]


def pages() -> list[Path]:
    """The pages that have promises."""
    return [path for path in sorted(FOLDER.glob("*.md")) if path != PLANTED]


def definitions(page: Path) -> dict[str, str]:
    """The file of each label of a page."""
    return dict(DEFINITION.findall(text_of(page)))


def labels(page: Path) -> set[str]:
    """The labels that a page uses: of calls and bodies with one of their own, and of bodies by their names alone."""
    text = DEFINITION.sub("", text_of(page))
    return set(re.findall(r"\]\[([^\]]+)\]", text)) | set(re.findall(r"(?<!\])\[(\w+)\](?![\[(:])", text))


def items_of(lines: list[str]) -> dict[str, list[str]]:
    """The items of a list, without their kinds; one of no known kind is under the empty name."""
    whole = re.sub(r"\n  ", " ", "\n".join(lines))
    found: dict[str, list[str]] = {}
    for line in whole.splitlines():
        if line.startswith("- "):
            kind = next((one for one in KINDS if line[2:].startswith(one)), "")
            found.setdefault(kind.rstrip(": "), []).append(line[2 + len(kind):])
    return found


def promises_of(page: Path) -> Iterator[Promise]:
    """The promises of a page, in order."""
    lines = DEFINITION.sub("", text_of(page)).splitlines()
    heads = [i for i, line in enumerate(lines) if line.startswith("#")] + [len(lines)]
    for begin, end in zip(heads, heads[1:]):
        if lines[begin].startswith("### "):
            body = lines[begin + 1:end]
            first = next((i for i, line in enumerate(body) if line.startswith("- ")), len(body))
            sentence = " ".join(" ".join(body[:first]).split())
            yield Promise(page, begin + 1, lines[begin][4:], sentence, items_of(body[first:]))


def promises() -> list[Promise]:
    """All promises."""
    return [promise for page in pages() for promise in promises_of(page)]


def groups(item: str) -> list[Group]:
    """The groups of an item of the kind By. Words in parentheses, and words with a capital, are definitions."""
    found = []
    for part in re.split(r";\s+", item):
        last = max((one.end() for one in LINK.finditer(part)), default=0)
        names = part[last:].partition(": ")[2]
        clauses = re.findall(r"`([^`]+)`", re.sub(r"\([^)]*\)", "", names))
        inner = [name for name in re.findall(r"`([^`]+)`", names) if name not in clauses]
        words = [name for name in clauses if name[0].isupper()]
        found.append(Group(LINK.findall(part), [name for name in clauses if name not in words], words + inner))
    return found


@lru_cache(maxsize=None)
def functions(path: Path) -> dict[str, list[str]]:
    """The texts of the functions of a file, by their names; each goes on to the next function."""
    text = text_of(path)
    starts = [found.start() for found in NEXT_FUNCTION.finditer(text)] + [len(text)]
    parts: dict[str, list[str]] = {}
    for begin, end in zip(starts, starts[1:]):
        name = re.search(r"fn (\w+)", text[begin:end])
        parts.setdefault(name[1] if name else "", []).append(text[begin:end])
    return parts


def contract_of(call: str, path: Path) -> str | None:
    """Where a call's clauses stand in a file: in its function, or all of the file for a type; None if it isn't there.

    The name of a law may stand in a list of names that its file exports.
    """
    name = call.rpartition("::")[2]
    if name in functions(path):
        return "\n".join(functions(path)[name])
    text = text_of(path)
    if re.search(rf"\b(?:struct|enum|trait|type|ghost) {name}\b", text):
        return text
    exported = re.findall(r"^pub use [^;]+;", text, re.M)
    return text if any(re.search(rf"\b{name}\b", one) for one in exported) else None


def is_type(call: str) -> bool:
    """Whether a name is that of a type or a trait."""
    return call.rpartition("::")[2][0].isupper()


@lru_cache(maxsize=1)
def defined() -> frozenset[str]:
    """The words that some crate's definitions have."""
    paths = (TOP / "crates").glob("*/specs/**/*.antt")
    return frozenset(word for path in paths for word in re.findall(r"[\w-]+", text_of(path)))


def has_clause(text: str, clause: str) -> bool:
    """Whether a contract has a clause of this name."""
    return bool(re.search(rf"\b(?:ensures|requires|ghost) {clause}\b", text))
