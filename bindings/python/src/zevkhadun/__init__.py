"""Document stores: documents by number, in a file that is mapped into memory, and files of them that are written.

    from zevkhadun import Store, Writer

    with Writer("words.store") as writer:
        writer.put(b"apple")

    with Store("words.store") as store:
        print(len(store), store[0], store[-1], store[0:2])
"""

from .refusals import (
    REFUSALS,
    BadBlockKind,
    BadIndex,
    BadOffset,
    BadPeriod,
    BadVersion,
    BlockTooLarge,
    Busy,
    Changed,
    Closed,
    DamagedDocument,
    Failed,
    NoDocument,
    NoMemory,
    NoRoom,
    NotPlainFile,
    OldVersion,
    OpenBlock,
    OtherBlock,
    OtherTable,
    OtherWriter,
    Refused,
    ShortFile,
    TailTooShort,
    TooManyDocs,
    ZevkhadunError,
)
from .ranged import RangedStore
from .store import Store
from .stores import Stores
from .writer import Writer

__version__ = "0.2.0"

__all__ = [
    "REFUSALS",
    "BadBlockKind",
    "BadIndex",
    "BadOffset",
    "BadPeriod",
    "BadVersion",
    "BlockTooLarge",
    "Busy",
    "Changed",
    "Closed",
    "DamagedDocument",
    "Failed",
    "NoDocument",
    "NoMemory",
    "NoRoom",
    "NotPlainFile",
    "OldVersion",
    "OpenBlock",
    "OtherBlock",
    "OtherTable",
    "OtherWriter",
    "RangedStore",
    "Refused",
    "ShortFile",
    "Store",
    "Stores",
    "TailTooShort",
    "TooManyDocs",
    "Writer",
    "ZevkhadunError",
]
