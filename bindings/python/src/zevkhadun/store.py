"""Reading a store from a file or from bytes."""

from __future__ import annotations

import os
import struct
from collections.abc import Sequence
from functools import partial
from typing import Any, Iterator, Literal, Optional, Tuple, Union

from ._core import Documents, Reader
from .closing import Closing
from .paths import absolute, check_plain, open_plain
from .types import Buffer, Path

#: what comes in place of a damaged document: an exception, nothing, or None
Damaged = Literal["raise", "skip", "none"]

# The footer: version, length of the data, block kind, period, and bytes without a meaning.
_FOOTER = struct.Struct("<IQBB14x")
# Files of older versions have no place for the period.
_OLD_PERIOD = 8


class Store(Reader, Closing, Sequence[bytes]):
    """A store: a sequence of bytes, in a file that is mapped into memory and may be larger than memory.

    A get copies the document out of the file; `view` doesn't. Any number of threads may use a store at once. It is
    pickled by its path, so a process that gets it opens the file itself.
    """

    def __init__(self, source: Union[Path, Buffer], *, check: bool = True) -> None:
        """Opens a store, and checks its whole index: of a file, which is mapped, or of any object with bytes.

        Bytes that may change must not change while the store is open.

        With `check=False` it takes the same short time for each size of file: it checks the footer and the few parts
        of the index that it reads. A get then takes longer, since it reads a part of the index, and checks that part.
        So a damaged file may be opened, and then have another number of documents, and a get may raise BadIndex or
        DamagedDocument, or give other bytes of the file. `verify` checks the whole file at any time.

        Raises OSError; NotPlainFile for a pipe or a device; ShortFile, BadVersion, BadBlockKind, BadOffset, BadPeriod
        or BadIndex if the bytes are not a store; NoMemory.
        """
        self._check = check
        self._source: Optional[Buffer] = None
        self._path: Optional[str] = None
        self._absolute_path = ""
        if not isinstance(source, (str, os.PathLike)):
            self._source = source
            self._open_buffer(source, check)
            return
        self._path = os.fspath(source)
        self._absolute_path = absolute(self._path)
        descriptor = open_plain(self._path, os.O_RDONLY)
        try:
            check_plain(self._path, os.fstat(descriptor))
            self._open_file(descriptor, self._path, check)
        finally:
            os.close(descriptor)

    @property
    def path(self) -> Optional[str]:
        """The path that it was opened by; None for bytes."""
        return self._path

    @property
    def data_size(self) -> int:
        """The number of bytes that the blocks of documents have. Raises Closed."""
        return self._facts()[1]

    @property
    def version(self) -> int:
        """The version of the format: 1, 2 or 3. Raises Closed."""
        return self._facts()[0]

    @property
    def period(self) -> int:
        """How many entries a run of the index has. Raises Closed."""
        version, _, _, period = self._facts()
        return period if version == 3 else _OLD_PERIOD

    def iter(self, *, damaged: Damaged = "raise") -> Iterator[bytes]:
        """The documents in order, one in memory at a time.

        A damaged document raises DamagedDocument and ends the iteration; or it is left out ("skip"); or None comes in
        its place ("none"). Raises Closed.
        """
        return Documents(self, damaged)

    def __iter__(self) -> Iterator[bytes]:
        """The documents in order, one in memory at a time. Raises DamagedDocument and Closed."""
        return Documents(self, "raise")

    def close(self) -> None:
        """Closes the file. A second call does nothing. A get that runs in another thread at the same time completes.

        Raises BufferError as long as there are views of its documents; the store stays open then.
        """
        self._close()
        self._source = None

    def __reduce__(self) -> Tuple[Any, ...]:
        if not self.is_open:
            raise TypeError("a closed store can't be pickled")
        opening = type(self) if self._check else partial(type(self), check=False)
        if self._path is not None:
            return opening, (self._absolute_path,)
        if isinstance(self._source, bytes):
            return opening, (self._source,)
        raise TypeError("only a store of a path or of bytes can be pickled")

    def __repr__(self) -> str:
        what = repr(self._path) if self._path is not None else "buffer"
        state = f"{len(self)} documents" if self.is_open else "closed"
        return f"{type(self).__name__}({what}, {state})"

    def _facts(self) -> Tuple[int, int, int, int]:
        """Version, length of the data, block kind and period."""
        version, data_size, kind, period = _FOOTER.unpack(self._footer())
        return version, data_size, kind, period
