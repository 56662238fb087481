"""The help texts of the program, as commands with their arguments and options."""

from __future__ import annotations

import re
from dataclasses import dataclass, field
from pathlib import Path

TOP = Path(__file__).resolve().parent.parent.parent
HELP = TOP / "tests" / "program" / "help"
NAME = "zevkhadun"
# A line that begins an entry, and what is said beside it.
ENTRY = re.compile(r" {2,6}([-<\[\w].*?)(?: {2,}(\S.*))?")
OPTION = re.compile(r"(?:-(?P<short>\w)(?:, )?)?(?:--(?P<long>[\w-]+))?(?: <(?P<value>[^>]+)>)?(?:\.\.\.)?")
ARGUMENT = re.compile(r"[<\[](?P<name>[^>\]]+)[>\]](?P<more>\.\.\.)?")
VALUES = re.compile(r"\[possible values: ([^\]]*)\]")
# Arguments and values that name files. Any other one is a number or a list of numbers.
FILES = {"FILE", "FOLDER", "OUT", "INPUT", "STORE", "LIST", "INPUT=IDS"}


@dataclass
class Entry:
    """An argument, an option or a subcommand as it is written, and the lines of its help."""

    spelled: str
    lines: list[str] = field(default_factory=list)

    def help(self) -> str:
        """Its help, without what is said of values."""
        kept = [line for line in self.lines if not line.startswith("[")]
        return "\n".join(kept).strip("\n")

    def summary(self) -> str:
        """The first line of its help."""
        first = self.help().split("\n")[0]
        return re.sub(r" \[(?:default|possible values): [^\]]*\]", "", first).rstrip(":")

    def values(self) -> list[str]:
        """The words that it may have, if only some."""
        found = VALUES.search(" ".join(self.lines))
        return found[1].split(", ") if found else []


@dataclass
class Option(Entry):
    """An option: its names and its value."""

    short: str = ""
    long: str = ""
    value: str = ""

    def names(self) -> list[str]:
        """Its names, with their dashes."""
        return ([f"-{self.short}"] if self.short else []) + ([f"--{self.long}"] if self.long else [])

    def takes_file(self) -> bool:
        """Whether its value names a file."""
        return self.value in FILES


@dataclass
class Argument(Entry):
    """An argument that has no name on the command line."""

    name: str = ""
    is_repeated: bool = False

    def takes_file(self) -> bool:
        """Whether it names a file."""
        return self.name in FILES


@dataclass
class Command:
    """The program or one of its commands."""

    name: str
    about: str = ""
    usage: str = ""
    arguments: list[Argument] = field(default_factory=list)
    options: list[Option] = field(default_factory=list)
    commands: list["Command"] = field(default_factory=list)
    after: list[str] = field(default_factory=list)

    def last_name(self) -> str:
        """Its name among the commands beside it."""
        return self.name.split()[-1]

    def below(self) -> list["Command"]:
        """All commands below it, each before those below that one."""
        return [each for command in self.commands for each in (command, *command.below())]


def entries(lines: list[str]) -> list[Entry]:
    """The entries of a section. A line that begins none belongs to the last one."""
    found: list[Entry] = []
    for line in lines:
        if begins := ENTRY.fullmatch(line):
            found.append(Entry(begins[1], [begins[2]] if begins[2] else []))
        elif found:
            found[-1].lines.append(line.strip())
    return found


def option_of(entry: Entry) -> Option:
    """An entry of the options."""
    found = OPTION.fullmatch(entry.spelled)
    if not found:
        raise ValueError(f"no option: {entry.spelled}")
    names = {name: text or "" for name, text in found.groupdict().items()}
    return Option(entry.spelled, entry.lines, **names)


def argument_of(entry: Entry) -> Argument:
    """An entry of the arguments."""
    found = ARGUMENT.fullmatch(entry.spelled)
    if not found:
        raise ValueError(f"no argument: {entry.spelled}")
    return Argument(entry.spelled, entry.lines, found["name"], found["more"] is not None)


def sections(text: str) -> dict[str, list[str]]:
    """The lines of each section by its heading; what follows the options is the section `after`."""
    parts: dict[str, list[str]] = {"about": []}
    name = "about"
    for line in text.splitlines():
        heading = re.fullmatch(r"(Commands|Arguments|Options):", line)
        if heading:
            name = heading[1]
        elif name == "Options" and line and not line.startswith(" "):
            name = "after"
        parts.setdefault(name, []).append("" if heading else line)
    return parts


def command_of(name: str, text: str) -> Command:
    """A command by its help text."""
    parts = sections(text)
    about, _, usage = "\n".join(parts["about"]).partition("Usage: ")
    return Command(
        name,
        about.strip(),
        usage.strip(),
        [argument_of(entry) for entry in entries(parts.get("Arguments", []))],
        [option_of(entry) for entry in entries(parts.get("Options", []))],
        after=parts.get("after", []),
    )


def with_commands(folder: Path, command: Command, text: str, before: str) -> Command:
    """A command with those that its help text lists and a file describes: `log append` is in `log-append.txt`."""
    for entry in entries(sections(text).get("Commands", [])):
        name = f"{before}{entry.spelled}"
        path = folder / f"{name.replace(' ', '-')}.txt"
        if path.exists():
            said = path.read_text()
            command.commands.append(with_commands(folder, command_of(name, said), said, f"{name} "))
    return command


def commands_of(folder: Path = HELP) -> Command:
    """The program with its commands, by the help texts of a folder."""
    text = (folder / f"{NAME}.txt").read_text()
    return with_commands(folder, command_of(NAME, text), text, "")
