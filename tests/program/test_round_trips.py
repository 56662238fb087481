"""Every framing there and back: documents of all sizes, from files and from pipes, in stores and in logs."""

import random
import subprocess

from harness import ProgramCase

# Around the sizes of a block and of a buffer.
SIZES = (0, 1, 2, 3, 4, 5, 1000, 16_383, 16_384, 65_531, 65_532, 65_535, 65_536, 65_537, 131_072, 200_000)
FRAMED = {
    "lines": lambda document: document.replace(b"\n", b" ") + b"\n",
    "text": lambda document: document.replace(b"\n", b" ") + b"\n",
    "nul": lambda document: document.replace(b"\0", b" ") + b"\0",
    "lengths": lambda document: len(document).to_bytes(4, "little") + document,
}


def framed(framing: str, seed: int) -> bytes:
    """Random documents in a framing: some of each of the sizes, and many small ones between them."""
    chosen = random.Random(seed)
    sizes = [size for size in SIZES for _ in range(2)] + [chosen.randrange(300) for _ in range(2000)]
    chosen.shuffle(sizes)
    return b"".join(FRAMED[framing](chosen.randbytes(size)) for size in sizes)


class RoundTrips(ProgramCase):
    def feed(self, content: bytes, *words: str) -> None:
        """Runs the program on a standard input that comes in pieces of any size."""
        chosen = random.Random(len(content))
        command = [self.program.path, *words]
        with subprocess.Popen(command, cwd=self.folder, stdin=subprocess.PIPE, bufsize=0) as writing:
            while content:
                piece = content[:chosen.choice((1, 3, 100, 4096, 65_536, 300_000))]
                writing.stdin.write(piece)
                content = content[len(piece):]
            writing.stdin.close()
            self.assertEqual(writing.wait(timeout=60), 0)

    def test_documents_of_all_sizes_come_back_from_a_store(self):
        for framing in FRAMED:
            with self.subTest(framing):
                content = framed(framing, 1)
                self.write("input", content)
                how = ("--framing", framing)
                self.program.gives("pack", "--replace", *how, "a.store", "input")
                self.feed(content, "append", *how, "a.store", "-")
                self.assert_documents("a.store", content * 2, *how)
                self.assert_same(self.program.gives("get", *how, "a.store", ".."), content * 2, "other documents")

    def test_records_of_all_sizes_come_back_from_a_log(self):
        for framing in FRAMED:
            with self.subTest(framing):
                content = framed(framing, 2)
                self.write("input", content)
                how = ("--framing", framing)
                self.program.gives("log", "append", *how, framing, "input", "--seal-size", "100000")
                self.feed(content, "log", "append", *how, framing, "--sync", "end")
                self.assert_same(self.program.gives("log", "cat", *how, framing), content * 2, "other records")
                self.assert_same(self.program.gives("log", "get", *how, framing, ".."), content * 2, "other records")

    def test_files_of_all_sizes_come_back(self):
        chosen = random.Random(3)
        contents = [chosen.randbytes(size) for size in SIZES]
        for number, content in enumerate(contents):
            self.write(str(number), content)
        names = [str(number) for number in range(len(contents))]
        self.program.gives("pack", "--framing", "files", "a.store", *names)
        for number, content in enumerate(contents):
            given = self.program.gives("get", "--framing", "files", "a.store", str(number))
            self.assert_same(given, content, f"document {number}")

    def test_an_input_that_ends_in_a_document_is_refused_wherever_it_ends(self):
        content = b"".join(FRAMED["lengths"](document) for document in (b"one", b"", b"three" * 3))
        whole = {0, 7, 11, len(content)}
        for end in range(len(content) + 1):
            done = self.program.run("pack", "--replace", "--framing", "lengths", "a.store", input=content[:end])
            self.assertEqual(done.returncode, 0 if end in whole else 1, f"{end} bytes")
        for length in (b"\xff\xff\xff\xff", b"\x00\x00\x00\x80", b"\x01\x00\x00\x01"):
            self.program.fails(1, "standard input: ", "pack", "--framing", "lengths", "b.store", input=length + b"few")
        self.assert_missing("b.store")
