"""The man page."""

from __future__ import annotations

from help_texts import NAME, Argument, Command, Entry, Option

WRITTEN_BY = "It is written by tools/completions/write.py from the help texts."


def plain(text: str) -> str:
    """A text as roff sets it."""
    lines = [line.replace("\\", "\\e").replace("-", "\\-").replace("'", "\\(aq") for line in text.split("\n")]
    return "\n".join("\\&" + line if line.startswith(".") else line for line in lines)


def tag(entry: Entry) -> str:
    """The line that names an argument or an option."""
    if isinstance(entry, Option):
        names = ", ".join(f"\\fB{plain(name)}\\fR" for name in entry.names())
        return f"{names} \\fI{plain(entry.value)}\\fR" if entry.value else names
    if isinstance(entry, Argument):
        return f"\\fI{plain(entry.name)}\\fR" + (" ..." if entry.is_repeated else "")
    return plain(entry.spelled)


def described(entry: Entry) -> list[str]:
    """The lines of an argument or an option."""
    said = "\n".join(line for line in entry.lines if line)
    return [".TP", tag(entry), *plain(said).replace("\n", "\n.br\n").split("\n")]


def paragraphs(lines: list[str]) -> list[str]:
    """What follows the options: paragraphs, and examples as they are."""
    out: list[str] = []
    for line in lines:
        if line == "Example:":
            out += [".PP", "Example:"]
        elif line.startswith("  "):
            out += [".PP", ".nf", plain(line.strip()), ".fi"]
        else:
            out.append(plain(line) if line else ".PP")
    while out and out[0] == ".PP":
        del out[0]
    return without_empty_paragraphs(out)


def without_empty_paragraphs(lines: list[str]) -> list[str]:
    """The lines, with one `.PP` where several follow one another, and none at the end."""
    kept = [line for line, after in zip(lines, [*lines[1:], ".PP"]) if (line, after) != (".PP", ".PP")]
    return kept


def command_lines(command: Command) -> list[str]:
    """The part of a command."""
    lines = [f".SS {command.name}", ".nf", plain(command.usage), ".fi", ".PP", plain(command.about) + "."]
    for entry in [*command.arguments, *command.options]:
        lines += described(entry)
    after = paragraphs(command.after)
    return lines + [".PP", *after] if after else lines


def man_page(program: Command, version: str) -> str:
    """The page of the program and all its commands."""
    lines = [
        f'.\\" {WRITTEN_BY}',
        f'.TH {NAME.upper()} 1 "" "{NAME} {version}" "User Commands"',
        ".SH NAME", f"{NAME} \\- {plain(program.about[0].lower() + program.about[1:])}",
        ".SH SYNOPSIS", ".nf", *(plain(command.usage) for command in program.below() if not command.commands), ".fi",
        ".SH DESCRIPTION", *paragraphs(program.after),
        ".SH OPTIONS", *(line for option in program.options for line in described(option)),
        ".SH COMMANDS", *(line for command in program.below() for line in command_lines(command)),
    ]
    return "\n".join(lines) + "\n"
