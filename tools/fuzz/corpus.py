#!/usr/bin/env python3
"""Turns a corpus of files into lines of hexadecimal text, shortest first, and back.

usage: corpus.py unpack HEX FOLDER
       corpus.py pack FOLDER HEX
"""

import sys
from pathlib import Path


def unpack(text: Path, folder: Path) -> None:
    """Writes each line of a text into a file of its own."""
    folder.mkdir(exist_ok=True)
    for number, line in enumerate(text.read_text().splitlines()):
        (folder / f"{number:05}").write_bytes(bytes.fromhex(line))


def pack(folder: Path, text: Path) -> None:
    """Writes each file of a folder as a line of a text."""
    inputs = sorted((path.read_bytes() for path in folder.iterdir()), key=lambda data: (len(data), data))
    text.write_text("".join(data.hex() + "\n" for data in inputs))


def main() -> int:
    if len(sys.argv) != 4 or sys.argv[1] not in ("pack", "unpack"):
        print(__doc__, file=sys.stderr)
        return 2
    {"pack": pack, "unpack": unpack}[sys.argv[1]](Path(sys.argv[2]), Path(sys.argv[3]))
    return 0


if __name__ == "__main__":
    sys.exit(main())
