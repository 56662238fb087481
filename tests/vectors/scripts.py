"""The scripts of the outside vectors with their answers: a list of commands, each with the lines that answer it."""

from __future__ import annotations

from collections.abc import Iterator
from dataclasses import dataclass, field

from vectors.files import DATA

# The answers of a line that hold for every command, of which a list has no `end`.
SINGLE = ("bad", "busy", "none", "no store")
LISTS = ("iter", "dump", "marks")


@dataclass
class Script:
    """A script: its commands with their answers, and the file of each store of which the bytes are known."""

    name: str
    answers: list[tuple[list[str], list[str]]] = field(default_factory=list)
    stores: dict[str, bytes] = field(default_factory=dict)


def bytes_of(word: str) -> bytes:
    """The bytes of a hexadecimal word."""
    return b"" if word == "-" else bytes.fromhex(word)


def answers_of(name: str) -> Iterator[tuple[list[str], list[str]]]:
    """Each command of a script with its answer."""
    commands = (DATA / f"{name}.script").read_bytes().decode("latin-1").removesuffix("\n").split("\n")
    lines = iter((DATA / f"{name}.expected").read_text().splitlines())
    for command in commands:
        answer = [next(lines, "")]
        while command.split(" ")[0] in LISTS and answer[-1] not in ("end", *SINGLE):
            answer.append(next(lines))
        yield command.split(" "), answer


def script_of(name: str) -> Script:
    """A script of the vectors."""
    script = Script(name, list(answers_of(name)))
    for words, answer in script.answers:
        made = answer[0].split(" ")
        if words[0] == "load" and made[0] == "store":
            script.stores[made[1]] = bytes_of(words[1])
        if words[0] == "hex" and answer[0] not in SINGLE:
            script.stores[words[1]] = bytes_of(answer[0])
    return script


def scripts() -> list[Script]:
    """All scripts of the vectors."""
    return [script_of(path.stem) for path in sorted(DATA.glob("*.script"))]
