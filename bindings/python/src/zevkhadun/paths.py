"""Names of files, and how they are opened."""

from __future__ import annotations

import fcntl
import os
import stat

from .refusals import NotPlainFile, error_at
from .types import Path

# What gets the name of a plain file before that is opened is not waited for.
_FLAGS = os.O_CLOEXEC | os.O_NONBLOCK | os.O_NOCTTY


def absolute(path: Path) -> str:
    """The name of a file from the root, which stays the same where the program changes its folder.

    A `..` in it stays, as it leads elsewhere after a link.
    """
    name = os.fspath(path)
    return name if os.path.isabs(name) else os.path.join(os.getcwd(), name)


def check_plain(path: str, found: os.stat_result) -> None:
    """Raises NotPlainFile of a pipe, a device or a socket. A link and a folder are left to the system."""
    if not (stat.S_ISREG(found.st_mode) or stat.S_ISLNK(found.st_mode) or stat.S_ISDIR(found.st_mode)):
        raise error_at(NotPlainFile, path, "not a plain file")


def _above_standard(descriptor: int) -> int:
    """A descriptor of the same open file that is none of those of the standard input and outputs.

    A program that was started without these may give one of them to the file, and then write messages into it. The
    descriptor that is given is closed if it is another one.
    """
    if descriptor > 2:
        return descriptor
    try:
        return fcntl.fcntl(descriptor, fcntl.F_DUPFD_CLOEXEC, 3)
    finally:
        os.close(descriptor)


def open_folder(path: str) -> int:
    """Opens the folder that the file of this name is in. Raises OSError."""
    return _above_standard(os.open(os.path.dirname(path), os.O_RDONLY | os.O_DIRECTORY | os.O_CLOEXEC))


def open_plain(path: str, flags: int, mode: int = 0o600) -> int:
    """Opens a plain file, and returns its descriptor, which is none of the standard input and outputs.

    A pipe or a device is not opened. One that gets the name just before that is opened and not waited for: the caller
    has to look what was opened. Raises OSError and NotPlainFile.
    """
    try:
        check_plain(path, os.stat(path, follow_symlinks=not flags & os.O_NOFOLLOW))
    except FileNotFoundError:
        # It may be made.
        pass
    return _above_standard(os.open(path, flags | _FLAGS, mode))
