"""The two steps that a worker does: pack a segment, and stack segments one after the other.

Both write a file of a name of their own and then give it the name that was asked for. So a step that is done twice, at
the same time even, or that ended in the middle, changes nothing: a name has the whole file or none.
"""

import os
import uuid
from pathlib import Path
from typing import Iterable, List

from zevkhadun import Store, Writer


def pack_segment(path: str, documents: Iterable[bytes]) -> str:
    """Writes a store of these documents. Returns its path."""
    beside = f"{path}.{uuid.uuid4().hex}"
    with Writer(beside) as writer:
        for document in documents:
            writer.put(document)
    os.replace(beside, path)
    return path


def stack_segments(path: str, inputs: List[str]) -> str:
    """Writes the store of these stores' blocks, one after the other, byte for byte. Returns its path."""
    beside = f"{path}.{uuid.uuid4().hex}"
    with Writer(beside) as writer:
        for name in inputs:
            with Store(name) as segment:
                writer.stack(segment)
    os.replace(beside, path)
    return path


def remove_leftovers(folder: Path) -> None:
    """Removes what steps that ended in the middle left."""
    for left in folder.glob("*.store.*"):
        left.unlink()
