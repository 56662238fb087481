"""Stores that are larger than what is written of them."""

import struct

# The longest block, and how many blocks a run of the index has at most.
BLOCK = 2**32 - 1
PERIOD = 64


def number(value):
    """A number as the format has it (docs/FORMAT.md, Numbers)."""
    groups = bytearray()
    while value >= 128:
        groups.append(value % 128)
        value //= 128
    groups.append(value + 128)
    return bytes(groups)


def end_of(blocks):
    """The index and the footer of a store, from the documents and the bytes of each block: one run of them."""
    entries = b"".join(number(documents) + number(length) for documents, length in blocks)
    layer = number(len(blocks)) + number(0) + number(0) + entries
    footer = struct.pack("<IQBB14x", 3, sum(length for _, length in blocks), 0, PERIOD)
    return number(1) + number(len(layer)) + layer + footer


def last_of(block):
    """The second document of a block."""
    return b"the last of block %2d" % block


def write_sparse(path, blocks):
    """A store whose blocks have two documents: the first is a hole in the file, as long as can be."""
    length = BLOCK - len(last_of(0)) - 12
    with open(path, "wb") as file:
        for block in range(blocks):
            file.seek(block * BLOCK + length)
            file.write(last_of(block) + struct.pack("<III", 0, length, 2))
        file.write(end_of([(2, BLOCK)] * blocks))
