#!/usr/bin/env python3
"""Writes the completions for bash, zsh and fish and the man page, from the help texts of the program.

The help texts are those of tests/program/help, which the tests of the program compare with what it prints. After a
change of them run this script again: the gate compares its files with the committed ones.
"""

from __future__ import annotations

import argparse
import sys
from pathlib import Path

from help_texts import HELP, TOP, Command, commands_of
from shells import bash, fish, zsh
from man_page import man_page

FOLDER = TOP / "bindings" / "shell"
NAME = "zevkhadun"


def generated(folder: Path = HELP) -> dict[str, str]:
    """The name of each file and its text, by the help texts in a folder."""
    program: Command = commands_of(folder)
    version = (TOP / "VERSION").read_text().strip()
    return {
        f"{NAME}.bash": bash(program),
        f"_{NAME}": zsh(program),
        f"{NAME}.fish": fish(program),
        f"{NAME}.1": man_page(program, version),
    }


def main() -> int:
    parser = argparse.ArgumentParser(description=__doc__)
    parser.add_argument("folder", nargs="?", type=Path, default=FOLDER, help="where they go: bindings/shell")
    folder: Path = parser.parse_args().folder
    folder.mkdir(parents=True, exist_ok=True)
    for name, text in generated().items():
        (folder / name).write_text(text)
    return 0


if __name__ == "__main__":
    sys.exit(main())
