"""The files of the outside vectors."""

from __future__ import annotations

from harness import TOP

DATA = TOP / "tests" / "vectors" / "data"
FOOTER_LEN = 28


def file_of(word: bytes) -> bytes | None:
    """The bytes of a word that is hexadecimal text and long enough for a footer."""
    if len(word) < 2 * FOOTER_LEN or len(word) % 2:
        return None
    try:
        return bytes.fromhex(word.decode("ascii"))
    except (UnicodeDecodeError, ValueError):
        return None


def files() -> list[bytes]:
    """The bytes of each file that a script or its answers have, once."""
    words = {word for path in DATA.iterdir() for word in path.read_bytes().split()}
    return sorted({file for word in words if (file := file_of(word)) is not None})
