"""Reading a store by ranges of its file, which lies elsewhere."""

from __future__ import annotations

import operator
from collections import OrderedDict
from collections.abc import Sequence
from threading import Lock
from typing import Callable, Dict, Iterable, Iterator, List, Optional, Tuple, Union, overload

from ._core import block_of, get_in
from .closing import Closing
from .refusals import Changed, Closed, DamagedDocument, NoDocument, Refused, error_of
from .store import Damaged
from .types import Buffer

#: the numbers of documents
NUMBERS = 2**32

#: a block: the number of its first document, one more than that of its last, its offset in the file, and its length
Block = Tuple[int, int, int, int]


class _Cache:
    """The blocks that were used last, up to a number of bytes."""

    def __init__(self, most: int) -> None:
        self._most = most
        self._size = 0
        self._blocks: "OrderedDict[int, Buffer]" = OrderedDict()
        self._lock = Lock()

    @property
    def size(self) -> int:
        """How many bytes it has."""
        return self._size

    def get(self, start: int) -> Optional[Buffer]:
        """The block at this offset, if it is here."""
        with self._lock:
            content = self._blocks.get(start)
            if content is not None:
                self._blocks.move_to_end(start)
            return content

    def put(self, start: int, content: Buffer) -> None:
        """Keeps a block, unless it alone is too long."""
        length = memoryview(content).nbytes
        with self._lock:
            if length > self._most or start in self._blocks:
                return
            self._blocks[start] = content
            self._size += length
            while self._size > self._most:
                _, dropped = self._blocks.popitem(last=False)
                self._size -= memoryview(dropped).nbytes

    def clear(self) -> None:
        """Drops all blocks."""
        with self._lock:
            self._blocks.clear()
            self._size = 0


class RangedStore(Closing, Sequence[bytes]):
    """A store that is read by ranges of its file: in object storage, on a web server, in an archive.

    `read(start, length)` returns that many bytes of the file from that offset on, and may raise anything. Opening takes
    one request, of the last bytes of the file, or two if the index is longer. A get takes one, of a block, or none if
    the block is in the cache. Blocks that follow one another in the file are asked for by one request.

    Any number of threads may use it at once, and `read` is called by each of them. Damage is found in what is read.

    Where the file may be replaced by another one, `version()` tells them apart: it returns the ETag of a response, or
    the size and the time of a file, or anything else that is compared by `==`. It is called before the first request,
    and after each request by the thread that made it, so it may return what that request saw.
    """

    def __init__(
        self,
        read: Callable[[int, int], Buffer],
        size: int,
        *,
        tail: int = 1 << 16,
        cache: int = 1 << 24,
        request: int = 1 << 22,
        path: Optional[str] = None,
        version: Optional[Callable[[], object]] = None,
    ) -> None:
        """Reads the index of a store whose file has `size` bytes.

        `tail` is the number of last bytes that the first request asks for. `cache` is the greatest number of bytes of
        blocks that are kept. `request` is the greatest number of bytes of a request, unless one block is longer.
        `path` is for messages.

        Raises what `read` and `version` raise, EOFError if `read` returns another number of bytes, Changed if `version`
        returns another value than before, and ShortFile, BadVersion, BadBlockKind, BadOffset, BadPeriod or BadIndex if
        the file is not that of a store.
        """
        self._read: Optional[Callable[[int, int], Buffer]] = read
        self._version = version
        self._opened_version = version() if version is not None else None
        self._size = operator.index(size)
        self._request = request
        self._path = path
        self._cache = _Cache(cache)
        self._tail = b""
        self._fetch_tail(min(max(tail, 28), self._size))
        self._count = self._counted()

    # ---- documents

    @property
    def path(self) -> Optional[str]:
        """The path that was given for messages."""
        return self._path

    @property
    def size(self) -> int:
        """How many bytes the file has."""
        return self._size

    @property
    def cached(self) -> int:
        """How many bytes of blocks are in the cache."""
        return self._cache.size

    def __len__(self) -> int:
        """How many documents it has."""
        return self._count

    @overload
    def __getitem__(self, number: int) -> bytes: ...

    @overload
    def __getitem__(self, number: slice) -> List[bytes]: ...

    def __getitem__(self, number: Union[int, slice]) -> Union[bytes, List[bytes]]:
        """A document by its number, counted from the end if it is negative; or a list of documents by a slice.

        Raises NoDocument, DamagedDocument, Changed, Closed, and what `read` and `version` raise.
        """
        if isinstance(number, slice):
            return self.get_many(range(*number.indices(self._count)))
        at = self._number(number)
        block = self._block_of(at)
        content = self._cache.get(block[2])
        return self._document(self._fetched([block])[block[2]] if content is None else content, block, at)

    def get_many(self, numbers: Iterable[int]) -> List[bytes]:
        """The documents of many numbers, in the order of the numbers, as a list.

        Each block is read once, and blocks that follow one another by one request. Raises what a get raises.
        """
        wanted = [self._number(number) for number in numbers]
        documents: Dict[int, bytes] = {}
        for group in self._groups(self._blocks_of(wanted)):
            contents = self._contents(block for block, _ in group)
            for block, asked in group:
                content = contents[block[2]]
                documents.update((number, self._document(content, block, number)) for number in asked)
        return [documents[number] for number in wanted]

    __getitems__ = get_many

    def iter(self, *, damaged: Damaged = "raise") -> Iterator[bytes]:
        """The documents in order, as `Store.iter` gives them. A request reads the blocks of many documents."""
        if damaged not in ("raise", "skip", "none"):
            raise ValueError(f"damaged is 'raise', 'skip' or 'none', not {damaged!r}")
        return self._iterate(damaged)

    def __iter__(self) -> Iterator[bytes]:
        """The documents in order. Raises DamagedDocument, Changed, Closed, and what `read` and `version` raise."""
        return self.iter()

    def block_of(self, number: int) -> Block:
        """Where the block of a document lies: its first document, one more than its last, its offset and its length.

        Raises NoDocument and BadIndex.
        """
        return self._block_of(self._number(number))

    def close(self) -> None:
        """Drops the cache. Later gets raise Closed."""
        self._read = None
        self._cache.clear()

    def __repr__(self) -> str:
        what = "" if self._path is None else f"{self._path!r}, "
        return f"{type(self).__name__}({what}{self._count} documents)"

    # ---- requests

    def _fetch(self, start: int, length: int) -> Buffer:
        """Asks for a range of the file."""
        read = self._read
        if read is None:
            raise Closed("the store is closed")
        content = read(start, length)
        self._check_version()
        if memoryview(content).nbytes != length:
            raise EOFError(f"{memoryview(content).nbytes} bytes were read at {start}, and not {length}")
        return content

    def _check_version(self) -> None:
        """Raises Changed if the file is not the one that was opened."""
        if self._version is not None and self._version() != self._opened_version:
            text = "The file is another one than when it was opened."
            error = Changed(f"{self._path}: {text}" if self._path else text)
            error.path = self._path
            raise error

    def _fetch_tail(self, length: int) -> None:
        """Asks for the last bytes of the file, and once more if they lack a part of the index."""
        while True:
            # A copy of its own: `read` may use its memory again.
            self._tail = bytes(self._fetch(self._size - length, length))
            try:
                found = block_of(self._tail, self._size, 0)
            except NoDocument:
                return
            except Refused as error:
                raise error_of(error.number, self._path) from None
            if isinstance(found, tuple):
                # The whole index may be longer than the part that this document needs.
                found = self._needed()
            if found <= length:
                return
            length = found

    def _needed(self) -> int:
        """How many of the last bytes the index and the footer are: the footer says where the index begins."""
        return self._size - int.from_bytes(self._tail[-24:-16], "little")

    def _counted(self) -> int:
        """The number of documents: the least number that no document has."""
        low, high = 0, NUMBERS - 1
        while low < high:
            middle = (low + high) // 2
            try:
                low = self._block_of(middle)[1]
            except NoDocument:
                high = middle
        return low

    def _contents(self, blocks: Iterable[Block]) -> Dict[int, Buffer]:
        """The bytes of blocks, from the cache or by requests, by their offsets."""
        contents: Dict[int, Buffer] = {}
        missing: List[Block] = []
        for block in blocks:
            content = self._cache.get(block[2])
            if content is None:
                missing.append(block)
            else:
                contents[block[2]] = content
        contents.update(self._fetched(missing))
        return contents

    def _fetched(self, blocks: List[Block]) -> Dict[int, Buffer]:
        """Asks for blocks, which are in order: those that follow one another by one request. The cache keeps them."""
        contents: Dict[int, Buffer] = {}
        for run in self._runs(blocks):
            start, end = run[0][2], run[-1][2] + run[-1][3]
            content = memoryview(self._fetch(start, end - start)).cast("B")
            for _, _, at, length in run:
                # A copy of its own, so that a block that is dropped frees its memory.
                contents[at] = bytes(content[at - start:at - start + length])
                self._cache.put(at, contents[at])
        return contents

    def _runs(self, blocks: List[Block]) -> Iterator[List[Block]]:
        """Parts of blocks that follow one another in the file, no longer than a request."""
        run: List[Block] = []
        for block in blocks:
            follows = bool(run) and run[-1][2] + run[-1][3] == block[2]
            if run and not (follows and block[2] + block[3] - run[0][2] <= self._request):
                yield run
                run = []
            run.append(block)
        if run:
            yield run

    # ---- blocks

    def _number(self, number: int) -> int:
        """The number of a document, of one that may count from the end."""
        at = operator.index(number)
        at = at + self._count if at < 0 else at
        if not 0 <= at < self._count:
            raise error_of(NoDocument.number, self._path, document=number)
        return at

    def _block_of(self, number: int) -> Block:
        """The block that has a document."""
        try:
            found = block_of(self._tail, self._size, number)
        except Refused as error:
            raise error_of(error.number, self._path) from None
        assert isinstance(found, tuple), "the whole index was read"
        return found

    def _document(self, content: Buffer, block: Block, number: int) -> bytes:
        """A document, by the bytes of its block."""
        try:
            return get_in(content, block, number)
        except Refused as error:
            raise error_of(error.number, self._path, document=number) from None

    def _blocks_of(self, numbers: Iterable[int]) -> List[Tuple[Block, List[int]]]:
        """The blocks that these documents are in, in order, and which documents of each."""
        found: List[Tuple[Block, List[int]]] = []
        for number in sorted(set(numbers)):
            if found and number < found[-1][0][1]:
                found[-1][1].append(number)
            else:
                found.append((self._block_of(number), [number]))
        return found

    def _groups(self, blocks: List[Tuple[Block, List[int]]]) -> Iterator[List[Tuple[Block, List[int]]]]:
        """Parts of these blocks that have as many bytes as a request, so that few of them are in memory at once."""
        group: List[Tuple[Block, List[int]]] = []
        size = 0
        for block in blocks:
            if group and size + block[0][3] > self._request:
                yield group
                group, size = [], 0
            group.append(block)
            size += block[0][3]
        if group:
            yield group

    def _ahead(self, first: int) -> List[Block]:
        """The blocks from a document on, as many as a request reads."""
        blocks = [self._block_of(first)]
        size = blocks[0][3]
        while blocks[-1][1] < self._count:
            block = self._block_of(blocks[-1][1])
            size += block[3]
            if size > self._request:
                break
            blocks.append(block)
        return blocks

    def _iterate(self, damaged: Damaged) -> Iterator[bytes]:
        number = 0
        while number < self._count:
            blocks = self._ahead(number)
            contents = self._contents(blocks)
            for block in blocks:
                for number in range(number, block[1]):
                    try:
                        yield self._document(contents[block[2]], block, number)
                    except DamagedDocument:
                        if damaged == "raise":
                            raise
                        if damaged == "none":
                            yield None  # type: ignore[misc]
                number = block[1]
