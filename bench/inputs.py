"""The documents and the numbers that are asked for, as peers/documents.c makes them, and the check over documents."""

from array import array
from typing import Iterable, Iterator, List

#: the seeds and steps of peers/documents.c and of crates/bench_store
SEEDS = {"documents": 88172645463325252, "numbers": 1234567890123456789}
POOL = 1 << 20
STEP = 4099
WORD = 2**64 - 1


def generated(seed: int) -> Iterator[int]:
    """The numbers of the generator, each of 64 bits."""
    state = seed
    while True:
        state ^= state << 13 & WORD
        state ^= state >> 7
        state ^= state << 17 & WORD
        yield state


def pool() -> bytes:
    """The bytes of which every document is a part."""
    numbers = generated(SEEDS["documents"])
    return array("Q", (next(numbers) for _ in range(POOL // 8))).tobytes()


def documents(first: int, end: int, length: int) -> List[bytes]:
    """The documents from one number up to another."""
    bytes_of_all = pool()
    starts = (number * STEP % (POOL - length) for number in range(first, end))
    return [bytes_of_all[start:start + length] for start in starts]


def uniform(questions: int, count: int) -> List[int]:
    """Numbers below `count`, each as often as the others."""
    numbers = generated(SEEDS["numbers"])
    return [next(numbers) % count for _ in range(questions)]


def sequence(questions: int, count: int) -> List[int]:
    """Numbers one after the other."""
    return [question % count for question in range(questions)]


def check_of(given: Iterable[bytes]) -> str:
    """The sum over documents by which two sides are seen to have done the same work."""
    value = 0
    for document in given:
        first, last = (document[0], document[-1]) if document else (0, 0)
        value = (value * 1000003 + len(document) + 256 * first + 65536 * last) & WORD
    return str(value)
