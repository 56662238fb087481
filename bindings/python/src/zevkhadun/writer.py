"""Writing."""

from __future__ import annotations

import operator
import os
import warnings
from types import TracebackType
from typing import Optional, Type

from ._core import Packer
from .closing import Closing
from .output import Output
from .refusals import BadPeriod
from .types import Path

#: the greatest block size
MOST = 2**64 - 1


class Writer(Packer, Closing):
    """A store that is written to a file, document by document.

    The bytes go to a second file, whose name ends in `.part`. `close`, or the end of a `with` without an exception,
    gives it the name. Until then, and after a crash, the name has what it had. A file that is there already is replaced
    only if `replace` is true. A second file that a crash
    left is taken over by the next writer of the name.

    One call at a time may use it: a second one, of another thread, raises RuntimeError.
    """

    def __init__(self, path: Path, *, block_size: int = 16384, period: int = 8, replace: bool = False) -> None:
        """Begins a store of no documents.

        A block ends when the bytes of its documents, and eight more for each, exceed `block_size`. `period` is the
        period of the index, from 2 to 64. `replace` says whether a file of this name is replaced; its mode is kept.
        Links are followed.

        Raises FileExistsError if there is a file and `replace` is false, BadPeriod, ValueError for a block size below 0
        or above the greatest, Busy if another writer writes to this name, NotPlainFile, and OSError.
        """
        self._period = operator.index(period)
        if not 2 <= self._period <= 64:
            raise BadPeriod(f"a period of {period}, which is below 2 or above 64")
        if not 0 <= operator.index(block_size) <= MOST:
            raise ValueError(f"a block size of {block_size}, which is below 0 or above {MOST}")
        self._path = os.fspath(path)
        self._process = os.getpid()
        self._output = Output(path, replace=replace)
        self._begin(self._output, block_size)

    @property
    def path(self) -> str:
        """The path that it was begun for."""
        return self._path

    def close(self) -> None:
        """Ends the store, asks the system to keep the file, and gives it its name.

        A second call, and one after `discard`, does nothing. Raises NoMemory and OSError, after which the writer has
        failed; Failed. A file that got the name meanwhile is a FileExistsError too, unless `replace` is true. (A file
        system that can't rename without replacing may replace one that comes just before the rename.)
        """
        if self._stage != "closed":
            self._finish(self._period)

    def __exit__(
        self, kind: Optional[Type[BaseException]], error: Optional[BaseException], trace: Optional[TracebackType]
    ) -> None:
        if kind is None:
            self.close()
        else:
            self.discard()

    def __del__(self) -> None:
        """Discards a writer that was dropped. A child process leaves the file to its parent."""
        if self._stage == "open" and self._process == os.getpid():
            warnings.warn(f"{self!r} was neither closed nor discarded", ResourceWarning, source=self)
            self.discard()

    def __repr__(self) -> str:
        return f"{type(self).__name__}({self._path!r}, {len(self)} documents, {self._stage})"
