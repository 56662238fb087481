"""Small stores that claim 4,294,967,295 documents: time and memory depend on the size of the file."""

import resource

from files.old_store import MIB, OldStoreCase

CLAIM = (1 << 32) - 1
# A byte that is no block, and a block of three documents; with each the number of its sound documents.
BLOCKS = {b"x": 0, b"onetwothree" + bytes.fromhex("00000000" "03000000" "06000000" "03000000"): 3}


def claiming(block: bytes) -> bytes:
    """A store of one block, whose index has one layer of one checkpoint of all ids."""
    index = bytes.fromhex("8189" "818080" "7f7f7f7f8f") + bytes([128 + len(block)])
    footer = bytes.fromhex("03000000") + len(block).to_bytes(8, "little") + bytes.fromhex("0008") + bytes(14)
    return block + index + footer


def limit() -> None:
    """A child has 256 MiB of memory and one second."""
    resource.setrlimit(resource.RLIMIT_AS, (256 * MIB, 256 * MIB))
    resource.setrlimit(resource.RLIMIT_CPU, (1, 1))


class Claimed(OldStoreCase):
    def stores(self):
        """Writes the stores, and returns the path of each with the number of its sound documents."""
        return [(str(self.write(f"claim{sound}.store", claiming(block))), sound) for block, sound in BLOCKS.items()]

    def run_limited(self, *words):
        """Runs the program with little memory and time."""
        return self.program.run(*words, preexec_fn=limit)

    def assert_succeeds(self, *words):
        """A command ends with 0 and prints no errors; its output is returned."""
        done = self.run_limited(*words)
        self.assertEqual((done.returncode, done.stderr), (0, b""))
        return done.stdout

    def test_the_least_store_with_this_claim_has_40_bytes(self):
        self.assertEqual([len(claiming(block)) for block in BLOCKS][0], 40)

    def test_verify_counts_the_damaged_documents(self):
        for path, sound in self.stores():
            done = self.run_limited("verify", "-q", path)
            said = f"damaged: {CLAIM - sound} of {CLAIM} documents, 1 of 1 blocks"
            self.assertEqual((done.returncode, done.stderr), (1, b""))
            self.assertIn(said, done.stdout.decode())

    def test_the_damaged_documents_are_one_range(self):
        for path, sound in self.stores():
            done = self.run_limited("verify", "--list", path)
            self.assertEqual((done.returncode, done.stdout), (1, b"%d..%d\n" % (sound, CLAIM)))
            done = self.run_limited("cat", "--keep-going", path)
            self.assertEqual((done.returncode, done.stdout), (1, b"one\ntwo\nthree\n" if sound else b""))
            self.assertIn(f"damaged documents were skipped: {sound}..{CLAIM}\n", done.stderr.decode())

    def test_stat_counts_the_documents(self):
        for path, _ in self.stores():
            self.assertIn(b'"documents":%d' % CLAIM, self.assert_succeeds("stat", "--json", path))

    def test_inspect_counts_the_damaged_documents(self):
        for path, sound in self.stores():
            self.assert_succeeds("inspect", "--replace", path, "--html", self.folder / "page.html")
            self.assertIn(f"damaged documents</th><td>{CLAIM - sound}<", self.read("page.html").decode())

    def test_cat_leaves_documents_out(self):
        for path, sound in self.stores():
            # The first damaged document after number 0, which is left out.
            done = self.run_limited("cat", path, "--without", "0")
            self.assertEqual(done.returncode, 1)
            self.assertIn(b"document %d is damaged" % max(sound, 1), done.stderr)
            self.assertEqual(self.assert_succeeds("cat", path, "--without", f"0..{CLAIM}"), b"")

    def test_merge_says_that_some_documents_are_damaged(self):
        for path, _ in self.stores():
            done = self.run_limited("merge", self.folder / "out.store", path, "--without", f"{path}=0")
            size = (self.folder / path).stat().st_size - 28
            said = f"it claims {CLAIM} documents in {size} bytes of blocks and index"
            advice = "so some of them are damaged; 'zevkhadun verify' says where"
            self.assertEqual(done.returncode, 1)
            self.assertEqual(done.stderr.decode(), f"zevkhadun: {path}: {said}, {advice}\n")
            self.assert_missing("out.store")
