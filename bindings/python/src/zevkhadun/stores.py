"""Many stores as one sequence."""

from __future__ import annotations

import operator
import os
from bisect import bisect_right
from collections.abc import Sequence
from itertools import accumulate
from typing import Any, Dict, Iterable, Iterator, List, Tuple, Union, overload

from .closing import Closing
from .ranged import RangedStore
from .refusals import NoDocument
from .store import Damaged, Store
from .types import Path

#: a store, or a path by which one is opened
Part = Union[Store, RangedStore, Path]


class Stores(Closing, Sequence[bytes]):
    """The documents of many stores, one after the other, as one sequence.

    There may be more than 2^32 of them. It is pickled by the paths. Any number of threads may use it at once.
    """

    def __init__(self, parts: Iterable[Part], *, check: bool = True) -> None:
        """Takes these stores, and opens those that are given by a path, as `Store` does. `close` closes them all.

        Raises what `Store` raises; the stores that were opened until then are closed.
        """
        self._stores: List[Union[Store, RangedStore]] = []
        opened: List[Store] = []
        try:
            for part in parts:
                if isinstance(part, (str, os.PathLike)):
                    opened.append(Store(part, check=check))
                    part = opened[-1]
                self._stores.append(part)
        except BaseException:
            for store in opened:
                store.close()
            raise
        self._ends = list(accumulate(len(store) for store in self._stores))

    @property
    def stores(self) -> Tuple[Union[Store, RangedStore], ...]:
        """The stores, in order."""
        return tuple(self._stores)

    def __len__(self) -> int:
        """How many documents all of them have."""
        return self._ends[-1] if self._ends else 0

    def locate(self, number: int) -> Tuple[int, int]:
        """Where a document is: which store has it, and its number there. Raises NoDocument."""
        at = operator.index(number)
        at = at + len(self) if at < 0 else at
        if not 0 <= at < len(self):
            raise NoDocument(f"The stores have no document of this number: {number}.")
        store = bisect_right(self._ends, at)
        return store, at - (self._ends[store - 1] if store else 0)

    @overload
    def __getitem__(self, number: int) -> bytes: ...

    @overload
    def __getitem__(self, number: slice) -> List[bytes]: ...

    def __getitem__(self, number: Union[int, slice]) -> Union[bytes, List[bytes]]:
        """A document by its number, counted from the end if it is negative; or a list of documents by a slice.

        Raises NoDocument, DamagedDocument and Closed.
        """
        if isinstance(number, slice):
            return self.get_many(range(*number.indices(len(self))))
        store, at = self.locate(number)
        return self._stores[store][at]

    def get_many(self, numbers: Iterable[int]) -> List[bytes]:
        """The documents of many numbers, in the order of the numbers, as a list. Each store is asked once.

        Raises NoDocument, DamagedDocument, NoMemory and Closed.
        """
        wanted: Dict[int, Tuple[List[int], List[int]]] = {}
        count = 0
        for number in numbers:
            store, at = self.locate(number)
            places, asked = wanted.setdefault(store, ([], []))
            places.append(count)
            asked.append(at)
            count += 1
        documents = [b""] * count
        for store, (places, asked) in wanted.items():
            for place, document in zip(places, self._stores[store].get_many(asked)):
                documents[place] = document
        return documents

    __getitems__ = get_many

    def iter(self, *, damaged: Damaged = "raise") -> Iterator[bytes]:
        """The documents in order, as `Store.iter` gives them."""
        for store in self._stores:
            yield from store.iter(damaged=damaged)

    def __iter__(self) -> Iterator[bytes]:
        """The documents in order. Raises DamagedDocument and Closed."""
        return self.iter()

    def close(self) -> None:
        """Closes all stores. Raises BufferError as long as one of them has views; it stays open then."""
        for store in self._stores:
            store.close()

    def __reduce__(self) -> Tuple[Any, ...]:
        return type(self), (self._stores,)

    def __repr__(self) -> str:
        return f"{type(self).__name__}({len(self._stores)} stores, {len(self)} documents)"
