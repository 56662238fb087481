"""Types of parameters."""

from __future__ import annotations

import array
import mmap
import os
from typing import Any, Union

#: anything that has bytes; for a type checker those of the standard library
Buffer = Union[bytes, bytearray, memoryview, mmap.mmap, "array.array[Any]"]

#: the name of a file
Path = Union[str, "os.PathLike[str]"]
