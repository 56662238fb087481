"""A file that takes its name only once it is whole.

It does what the Rattle `DiskSink` does, by the same names and locks, so that writers of both kinds exclude one another.
"""

from __future__ import annotations

import errno
import fcntl
import os
import stat
from typing import Optional, Tuple

from ._core import rename_new
from .paths import absolute, check_plain, open_folder, open_plain
from .refusals import Busy, NotPlainFile, error_at
from .types import Path


def _found_at(path: str) -> Optional[os.stat_result]:
    """What the file of this name is, if there is one."""
    try:
        return os.lstat(path)
    except FileNotFoundError:
        return None


def _check_free(path: str, found: Optional[os.stat_result]) -> None:
    """Raises FileExistsError if a file has this name."""
    if found is not None:
        raise FileExistsError(errno.EEXIST, os.strerror(errno.EEXIST), path)


def _replaced_file(path: str) -> Tuple[str, Optional[os.stat_result]]:
    """The name of the file that is to be replaced, where links lead, and what it is, if it is there."""
    found = _found_at(path)
    if found is not None and stat.S_ISLNK(found.st_mode):
        # A link that leads nowhere is refused here.
        os.stat(path)
        path = os.path.realpath(path)
        found = _found_at(path)
    if found is not None and not stat.S_ISREG(found.st_mode):
        raise error_at(NotPlainFile, path, "not a plain file")
    return path, found


def _lock(descriptor: int, path: str) -> None:
    """Locks the file of this name. One that another holds, or that took its name in the meantime, is busy."""
    try:
        fcntl.flock(descriptor, fcntl.LOCK_EX | fcntl.LOCK_NB)
    except BlockingIOError:
        raise error_at(Busy, path, "another writes to it") from None
    opened = os.fstat(descriptor)
    check_plain(path, opened)
    named = _found_at(path)
    if named is None or not os.path.samestat(named, opened):
        raise error_at(Busy, path, "another writes to it")


def _owned_by(path: str, user: int, group: int) -> None:
    """Gives the file its owner and group where the system lets us."""
    try:
        os.chown(path, user, group)
    except OSError:
        pass


def _copy_access(beside: str, replaced: os.stat_result) -> None:
    """Gives the file beside the mode of the one that it will replace, and its group and owner if that goes."""
    _owned_by(beside, -1, replaced.st_gid)
    _owned_by(beside, replaced.st_uid, -1)
    os.chmod(beside, replaced.st_mode & 0o777)


def _open_beside(path: str, is_private: bool) -> int:
    """Opens a file to write to it, and leaves what it holds: another may have locked it. A link isn't followed.

    If it is private nobody else may open it before it has the mode of the file that it will replace.
    """
    return open_plain(path, os.O_WRONLY | os.O_CREAT | os.O_NOFOLLOW, 0o600 if is_private else 0o666)


class Output:
    """The file beside, whose name ends in `.part`, until it is published or removed."""

    def __init__(self, path: Path, *, replace: bool) -> None:
        """Begins the file beside: locked, empty, and with the access that the replaced file has.

        What a crash left there is taken over. The folder is opened, and synced at the end. Without `replace` a file of
        the name is a FileExistsError. Raises OSError, Busy and NotPlainFile; nothing was changed then.
        """
        self._path, replaced = _replaced_file(absolute(path))
        self._replaces = replace
        if not replace:
            _check_free(self._path, replaced)
        self._beside = self._path + ".part"
        self._is_beside = False
        self._folder = open_folder(self._path)
        try:
            self._file = open(_open_beside(self._beside, replaced is not None), "wb", buffering=0)
            self._claim(replaced)
        except BaseException:
            self._close_folder()
            raise

    def _claim(self, replaced: Optional[os.stat_result]) -> None:
        """Locks the file beside, and empties it. If the system refuses that it is removed."""
        try:
            _lock(self._file.fileno(), self._beside)
            self._is_beside = True
            if replaced is not None:
                _copy_access(self._beside, replaced)
            os.ftruncate(self._file.fileno(), 0)
        except (Busy, NotPlainFile):
            self._file.close()
            raise
        except BaseException:
            self._is_beside = True
            self.remove()
            raise

    def write(self, content: memoryview) -> None:
        """Writes bytes after the others. Raises OSError."""
        while content:
            content = content[self._file.write(content):]

    def publish(self) -> None:
        """Asks the system to keep the bytes, and then to give them their name.

        Raises OSError. The file of the name is the old one then, or is whole.
        """
        os.fsync(self._file.fileno())
        self._take_name()
        self._is_beside = False
        os.fsync(self._folder)
        self.remove()

    def _take_name(self) -> None:
        """Gives the file beside its name. A file that got the name meanwhile is kept, unless it may be replaced."""
        if self._replaces:
            os.replace(self._beside, self._path)
        elif not rename_new(self._beside, self._path):
            # The file system has no such call: the name is looked up before it is given.
            _check_free(self._path, _found_at(self._path))
            os.replace(self._beside, self._path)

    def remove(self) -> None:
        """Removes the file beside, if it has not got the name, and lets it go."""
        if self._is_beside:
            self._is_beside = False
            try:
                os.remove(self._beside)
            except OSError:
                pass
        # Only now, as the lock goes with it.
        self._file.close()
        self._close_folder()

    def _close_folder(self) -> None:
        folder, self._folder = self._folder, -1
        if folder >= 0:
            os.close(folder)
