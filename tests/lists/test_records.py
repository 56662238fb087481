"""Records as bytes, which storetool reads from files: those of the format's description."""

from __future__ import annotations

import struct

from lists.case import ToolCase

# The version of a file, the bytes of its one document, and the answer to `rget`. Fields keep their order, and one may
# come twice.
RECORDS = (
    (3, "80", "empty"),
    (3, "8180826869", "0 6869"),
    (3, "8380826869" "2c8280" "80817a", "0 6869 300 - 0 7a"),
    (3, "81808268", "error 8"),
    (3, "8080", "error 8"),
    (2, "8180826869", "0 6869"),
    (1, "00000000", "empty"),
    (1, "0100000000000000020000006869", "0 6869"),
    (1, "8180826869", "error 8"),
)


def file_of(version: int, document: bytes) -> bytes:
    """A file of this version that has one short document."""
    block = document + struct.pack("<II", 0, 1)
    index = bytes.fromhex("8185818080") + bytes([0x81, 0x80 + len(block)])
    return block + index + struct.pack("<IQBB14x", version, len(block), 0, 8 if version == 3 else 0)


class Records(ToolCase):
    def test_each_record_has_its_fields(self):
        lines = []
        for place, (version, document, _) in enumerate(RECORDS):
            lines += [f"load {file_of(version, bytes.fromhex(document)).hex()}", f"rget {place} 0"]
        self.assertEqual(self.answers(lines)[1::2], [answer for _, _, answer in RECORDS])
