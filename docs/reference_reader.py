#!/usr/bin/env python3
"""Reads a store as FORMAT.md describes it, by the standard library alone: reference_reader.py FILE [NUMBER]..

Without numbers it prints all documents. It checks all that opening a file checks. It is short, and not quick.
"""

import itertools
import struct
import sys


class Refused(Exception):
    """The file is no store, or a document can't be read; the text is the name of the error in FORMAT.md."""


def spelled(number):
    """A number in groups of seven bits, the lowest first; the last byte has 128 added."""
    return bytes([number & 127]) + spelled(number >> 7) if number > 127 else bytes([number + 128])


def numbers(text):
    """The numbers that a text spells, one after the other."""
    value = shift = 0
    for byte in text:
        value, shift = value | (byte & 127) << shift, shift + 7
        if byte >= 128:
            yield value
            value = shift = 0


def checkpoint_block(run):
    """The bytes of a run. A checkpoint is its first document, the end of its documents, its first byte and its end."""
    lengths = (length for doc, end_doc, byte, end_byte in run for length in (end_doc - doc, end_byte - byte))
    return b"".join(map(spelled, [len(run), run[0][0], run[0][2], *lengths]))


def layer_count(count, period):
    """The number of layers above that many checkpoints: as many as the digits of the number in base `period`."""
    return 1 + layer_count(count // period, period) if count else 0


def index_part(layer, period):
    """The index part of a list of checkpoints."""
    texts = []
    for _ in range(layer_count(len(layer), period)):
        runs = [layer[i:i + period] for i in range(0, len(layer), period)]
        blocks = [checkpoint_block(run) for run in runs]
        ends = itertools.accumulate(map(len, blocks))
        layer = [(run[0][0], run[-1][1], end - len(text), end) for run, text, end in zip(runs, blocks, ends)]
        texts.insert(0, b"".join(blocks))
    ends = itertools.accumulate(map(len, texts))
    return b"".join([spelled(len(texts)), *map(spelled, ends), *texts])


def bottom_layer(index):
    """The checkpoints of the bottom layer. Raises StopIteration if the index ends too early."""
    parts = numbers(index)
    ends = [0] + [next(parts) for _ in range(next(parts))]
    parts = numbers(index[len(index) - (ends[-1] - ends[-2]):] if len(ends) > 1 else b"")
    found = []
    for count in parts:
        doc, byte = next(parts), next(parts)
        for _ in range(count):
            found.append((doc, doc + next(parts), byte, byte + next(parts)))
            _, doc, _, byte = found[-1]
    return found


def opened(file):
    """Checks the footer and the whole index of a file, and returns the checkpoint of each block."""
    if len(file) < 28:
        raise Refused("ShortFile")
    version, offset, kind, period = struct.unpack("<IQBB", file[-28:-14])
    period, index = period if version == 3 else 8, file[offset:-28]
    for name, is_so in (("BadVersion", version not in (1, 2, 3)), ("BadBlockKind", kind != 0),
                        ("BadPeriod", not 2 <= period <= 64), ("BadOffset", offset > len(file) - 28)):
        if is_so:
            raise Refused(name)
    try:
        found = bottom_layer(index)
    except StopIteration:
        raise Refused("BadIndex") from None
    ends = [(0, 0)] + [(end_doc, end_byte) for _, end_doc, _, end_byte in found]
    covers = ends[-1][0] < 2**32 and ends[-1][1] == offset and all(
        (doc, byte) == end and doc < end_doc and byte < end_byte < byte + 2**32
        for (doc, end_doc, byte, end_byte), end in zip(found, ends)
    )
    if not covers or index_part(found, period) != index:
        raise Refused("BadIndex")
    return found


def document(file, checkpoints, number):
    """The bytes of a document."""
    within = [checkpoint for checkpoint in checkpoints if checkpoint[0] <= number < checkpoint[1]]
    if not within:
        raise Refused("InvalidArgument")
    (doc, _, byte, end_byte), = within
    block = file[byte:end_byte]
    count = int.from_bytes(block[-4:], "little")
    table = len(block) - 4 * (count + 1)
    if table < 0 or number - doc >= count:
        raise Refused("DamagedDocument")
    starts = [start for start, in struct.iter_unpack("<I", block[table:-4])] + [table]
    start, end = starts[number - doc:][:2]
    if not start <= end <= table:
        raise Refused("DamagedDocument")
    return block[start:end]


def main(path="--help", *words):
    if path in ("-h", "--help"):
        return print(__doc__.strip())
    with open(path, "rb") as stream:
        file = stream.read()
    checkpoints = opened(file)
    num_docs = checkpoints[-1][1] if checkpoints else 0
    for number in map(int, words) if words else range(num_docs):
        sys.stdout.buffer.write(document(file, checkpoints, number) + b"\n")


if __name__ == "__main__":
    try:
        main(*sys.argv[1:])
    except (OSError, ValueError, Refused) as error:
        sys.exit(f"reference_reader.py: {error}")
