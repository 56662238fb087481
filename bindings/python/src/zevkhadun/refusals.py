"""Errors of the package: a class for each."""

from __future__ import annotations

from typing import Any, Dict, Optional, Type


class Refused(Exception):
    """An error of the package. Each kind has a class of its own."""

    #: the number that the library returns for it, or 0 for an error of this package alone
    number = 0
    #: the path of the file, if the error is one of a file that was opened by a path
    path: Optional[str] = None
    #: the number of the document, if the error is one of a document
    document: Optional[int] = None
    #: the offset in the file at which the index breaks, where `verify` found that
    byte: Optional[int] = None


#: the same class, by the name of the package
ZevkhadunError = Refused


# From refusals.txt:

class ShortFile(Refused):
    """The file is shorter than a footer."""

    number = 1


class BadVersion(Refused):
    """The footer has an unknown version."""

    number = 2


class BadBlockKind(Refused):
    """The blocks are compressed."""

    number = 3


class BadOffset(Refused):
    """The index would begin after the footer's first byte."""

    number = 4


class BadIndex(Refused):
    """The index is not one of blocks that cover the data."""

    number = 5


class NoDocument(Refused, IndexError):
    """The store has no document of this number."""

    number = 6


class DamagedDocument(Refused):
    """The block's table doesn't say where the document is."""

    number = 7


class NoMemory(Refused, MemoryError):
    """Out of memory."""

    number = 10


class OldVersion(Refused):
    """A store of version 1 can't be stacked."""

    number = 11


class BlockTooLarge(Refused):
    """A block would have 2^32 bytes or more."""

    number = 13


class TooManyDocs(Refused):
    """There would be 2^32 documents or more."""

    number = 14


class BadPeriod(Refused):
    """The period is below 2 or above 64."""

    number = 16


class NoRoom(Refused):
    """An array of the caller is too short."""

    number = 32


class OtherTable(Refused):
    """The table is not the one of the file."""

    number = 33


class OpenBlock(Refused):
    """The open block has documents; end it first."""

    number = 34


class OtherWriter(Refused):
    """The writer or its table is not as these calls left it."""

    number = 35


class TailTooShort(Refused):
    """The end of the file lacks the footer or a part of the index."""

    number = 36


class OtherBlock(Refused):
    """The block doesn't have the document, or has another length."""

    number = 37


# End of refusals.txt


class Closed(Refused, ValueError):
    """The store or the writer is closed."""


class Failed(Refused, ValueError):
    """The writer failed before, and its second file was removed."""


class Changed(Refused):
    """The file that is read by ranges is another one than when it was opened."""


class Busy(Refused):
    """Another writer writes to the file of this name."""


class NotPlainFile(Refused):
    """The name is one of a folder, a device or something else that is no plain file."""


#: the class of each number
REFUSALS: Dict[int, Type[Refused]] = {kind.number: kind for kind in Refused.__subclasses__() if kind.number}


def error_at(kind: Type[Refused], path: str, text: str) -> Refused:
    """An error of this package about the file of a name."""
    error = kind(f"{path}: {text}")
    error.path = path
    return error


def error_of(number: int, path: Optional[str] = None, **facts: Any) -> Refused:
    """The error of a number that the library returned, with the path of its file and further facts."""
    kind = REFUSALS.get(number, Refused)
    text = kind.__doc__ or ""
    if "document" in facts:
        text = f"{text[:-1]}: document {facts['document']}."
    if "byte" in facts:
        text = f"{text[:-1]}: byte {facts['byte']}."
    error = kind(f"{path}: {text}" if path else text)
    error.path = path
    for name, value in facts.items():
        setattr(error, name, value)
    return error
