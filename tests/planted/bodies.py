"""The wrong bodies that a crate has: what each changes, and the function that it changes.

A file `crates/NAME/planted/WHAT_IS_WRONG.edit` has the form of the files in `must-fail`: a line `file: PATH`, and pairs
of lines `old: TEXT` and `new: TEXT`. Each old text is in the file once.
"""

from __future__ import annotations

import re
from dataclasses import dataclass
from pathlib import Path

from harness import TOP

CRATES = TOP / "crates"
# The beginnings of the lines that open a function and what may hold one, as `rt fmt` writes them.
FUNCTION = re.compile(r"\s*(?:pub(?:\([\w: ]+\))? )?(?:const |unsafe |extern \"C\" )*fn (\w+)")
HOLDER = re.compile(r"\s*(?:pub(?:\([\w: ]+\))? )?(impl|trait|mod)\b(.*)")
# The sign of a reference to a type, and with a lifetime.
REFERENCE = re.compile(r"&(?:'\w+ )?(mut )?")


class BadBody(Exception):
    """Why a wrong body cannot be tried."""


@dataclass(frozen=True)
class Body:
    """A wrong body: its name, the file and the function that it changes, and each old text with the new one."""

    name: str
    file: str
    function: str
    pairs: tuple[tuple[str, str], ...]


def crates() -> list[str]:
    """The crates that have wrong bodies here."""
    return sorted({path.parent.parent.name for path in CRATES.glob("*/planted/*.edit")})


def paths(crate: Path) -> list[Path]:
    """The files of a crate's wrong bodies."""
    return sorted((crate / "planted").glob("*.edit"))


def read(path: Path) -> tuple[str, tuple[tuple[str, str], ...]]:
    """The file of src that an edit changes, and its pairs of an old and a new text."""
    file, old, pairs = "", "", []
    for line in path.read_text(encoding="utf-8").splitlines():
        kind, _, text = line.partition(":")
        text = text.removeprefix(" ")
        if kind == "file" and not file:
            file = text.strip()
        elif kind == "old" and text and not old:
            old = text
        elif kind == "new" and old:
            pairs.append((old, text))
            old = ""
        else:
            raise BadBody(f"a line that belongs to no file and no pair: {line}")
    if old or not pairs or not re.fullmatch(r"src/(?:\w+/)*\w+\.rt", file):
        raise BadBody("it has no file of src, or no pair")
    return file, tuple(pairs)


def changed(text: str, pairs: tuple[tuple[str, str], ...]) -> tuple[str, list[int]]:
    """A text after its changes, and the numbers of the lines, from 0 on, where they are."""
    lines = []
    for old, new in pairs:
        if text.count(old) != 1:
            raise BadBody(f"an old text is in the file {text.count(old)} times: {old}")
        before, after = text.split(old)
        lines.append(before.count("\n"))
        text = before + new + after
    return text, lines


def indent(line: str) -> int:
    """How far a line is indented."""
    return len(line) - len(line.lstrip())


def opening(lines: list[str], number: int, form: re.Pattern) -> tuple[int, re.Match] | None:
    """The nearest line above that has this form and is indented less."""
    for above in range(number - 1, -1, -1):
        if (found := form.match(lines[above])) and indent(lines[above]) < indent(lines[number]):
            return above, found
    return None


def without_parameters(text: str) -> str:
    """A list of a type's parameters, or of what they are, is left out at the beginning."""
    depth = 0
    for place, sign in enumerate(text):
        # `->` closes nothing.
        depth += (sign == "<") - (sign == ">" and text[place - 1:place] != "-")
        if not depth:
            return text[place + (sign == ">"):].lstrip()
    return ""


def parameters(text: str) -> set[str]:
    """The names that the list at the beginning of an impl declares."""
    declared = text[:len(text) - len(without_parameters(text))]
    return set(re.findall(r"[<,]\s*(\w+)", declared))


def words_of(named: str, declared: set[str]) -> list[str]:
    """The names of a type and of what it is applied to, without lifetimes, paths and declared parameters. A reference
    is named, as the prover names it."""
    named = REFERENCE.sub(lambda found: "RefMut " if found[1] else "Ref ", named)
    names = re.findall(r"'?\b\w+\b(?!::)", named)
    return [name for name in names if name[0] != "'" and name not in declared]


def holder_name(kind: str, head: str) -> str:
    """The name under which the prover has the functions of an impl, a trait or a module."""
    head = head.partition("{")[0].strip()
    if kind != "impl":
        return re.match(r"\w+", head)[0]
    declared = parameters(head) if head.startswith("<") else set()
    head = without_parameters(head) if declared else head
    made, _, of = head.partition(" where ")[0].rpartition(" for ")
    own = words_of(of, declared)
    if not made:
        return own[0]
    trait = words_of(made, declared)
    return "".join(own + [name for name in trait if name not in own])


def function_at(file: str, text: str, number: int) -> str:
    """The function that has a line of a file, as `rattle check --only` takes its name. That of an impl begins with its
    type, as the type may be of another module."""
    lines = text.splitlines()
    found = opening(lines, number, FUNCTION)
    if not found:
        raise BadBody(f"no function has line {number + 1} of {file}")
    at, function = found
    path = [function[1]]
    while indent(lines[at]) and (above := opening(lines, at, HOLDER)):
        at, holder = above
        # A long head goes on below.
        head = " ".join([holder[2], *map(str.strip, lines[at + 1:at + 4])])
        path.insert(0, holder_name(holder[1], head))
        if holder[1] == "impl":
            return "::".join(path)
    module = file[len("src/"):-len(".rt")].split("/")
    return "::".join([*([] if module in (["lib"], ["main"]) else module), *path])


def body(path: Path) -> Body:
    """The wrong body of a file."""
    crate = path.parent.parent
    file, pairs = read(path)
    if not (crate / file).is_file():
        raise BadBody(f"there is no file {file}")
    text = (crate / file).read_text(encoding="utf-8")
    new, lines = changed(text, pairs)
    if new == text:
        raise BadBody("it changes nothing")
    functions = {function_at(file, text, number) for number in lines}
    if len(functions) > 1:
        raise BadBody(f"it changes more than one function: {', '.join(sorted(functions))}")
    return Body(path.stem, file, functions.pop(), pairs)
