"""The reference reader of FORMAT.md finds in each file of the vectors what the program finds."""

from __future__ import annotations

from documents.test_reference import Reading, opening_of
from harness import ProgramCase
from vectors.files import files

# How many of the first documents of a file are compared; a file may claim four billion.
FIRST = 200


class Reference(ProgramCase):
    def documents_of(self, name: str, count: int) -> list[str]:
        """Each of the first documents of a file as the program gets it, or its error."""
        found = []
        for number in range(count):
            done = self.program.run("get", name, str(number), "--framing", "files")
            is_damaged = done.returncode == 1 and f"document {number} is damaged".encode() in done.stderr
            found.append("error 7" if is_damaged else done.stdout.hex() or "-")
        return found

    def compare(self, name: str, content: bytes) -> bool:
        """Compares what both find in a file. Returns whether it is a store."""
        error = opening_of(content)
        self.assertEqual(self.program.run("stat", name).returncode, 1 if error else 0, error)
        if error:
            return False
        reading = Reading(content)
        whole = self.program.run("cat", name, "--framing", "lengths")
        count = min(reading.num_docs, FIRST) if whole.returncode else reading.num_docs
        wanted = [reading.get(number) for number in range(count)]
        if whole.returncode:
            self.assertEqual(wanted, self.documents_of(name, count))
        else:
            parts = (bytes.fromhex(text.replace("-", "")) for text in wanted)
            self.assertEqual(b"".join(len(part).to_bytes(4, "little") + part for part in parts), whole.stdout)
        return True

    def test_both_find_the_same_in_each_file(self):
        contents = files()
        stores = 0
        for place, content in enumerate(contents):
            with self.subTest(file=place, content=content[:40].hex()):
                self.write(f"{place}.store", content)
                stores += self.compare(f"{place}.store", content)
        self.assertGreaterEqual(len(contents), 1112, "files of the vectors")
        self.assertGreaterEqual(stores, 80, "stores among them")
