"""A corpus in segments: documents that are made from a seed, so that each worker can make its own."""

import random
from dataclasses import dataclass
from typing import Iterator, List


@dataclass(frozen=True)
class Corpus:
    """Segments with as many documents each, of lengths around a mean."""

    segments: int
    documents: int
    length: int
    seed: int = 2026

    def segment(self, number: int) -> Iterator[bytes]:
        """The documents of a segment, in order."""
        generator = random.Random(self.seed * 1_000_003 + number)
        for _ in range(self.documents):
            yield generator.randbytes(generator.randrange(2 * self.length))

    def bytes_about(self) -> int:
        """About how many bytes all documents have."""
        return self.segments * self.documents * self.length


@dataclass(frozen=True)
class Places:
    """Where a document of a segment is in the store of all segments, one after the other."""

    counts: List[int]

    def number(self, segment: int, number: int) -> int:
        """The number in the whole store of a document of a segment."""
        if not 0 <= number < self.counts[segment]:
            raise IndexError(f"segment {segment} has no document {number}")
        return sum(self.counts[:segment]) + number
