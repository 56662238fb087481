"""The example in C that packs lines into a store, and each call of the system that it makes failing in turn."""

import os
import subprocess

from library.compiling import EXAMPLES, SOURCES, WARNINGS, LibraryCase, default_compiler, names_in, prefix, wrapped
from library.packing import PackingTests
from library.test_examples import ExampleCase, with_library

LINES = b"a\nb\nc\n"
# The functions that bindings/c/tests/failing.c wraps.
WRAPPED = r"^(?:WRAPPED\([^,]*, |size_t __wrap_)(\w+)"


class PackInC(PackingTests, ExampleCase):
    def new_program(self):
        return self.example("pack.c"), with_library()


class FailingCalls(LibraryCase):
    """The store that was there stays until the new one has its name, which is before the last three calls."""

    def setUp(self):
        super().setUp()
        self.program = self.folder / "failing"
        names = names_in(SOURCES / "failing.c", WRAPPED)
        self.assertGreater(len(names), 9, "functions that are wrapped")
        self.succeed(
            default_compiler(), "-std=c11", *WARNINGS, f"-I{prefix() / 'include'}", "-o", self.program, *wrapped(names),
            EXAMPLES / "pack.c", SOURCES / "failing.c", prefix() / "lib/libzevkhadun.a",
        )
        self.old, self.new = (self.packed(name, text) for name, text in (("old", b"old\n"), ("new", LINES)))

    def pack(self, name, text, call, *words):
        """Packs lines while the call of this number fails."""
        names = os.environ | {"FAIL_AT": str(call)}
        command = [self.program, *words, name]
        return subprocess.run(command, input=text, env=names, cwd=self.folder, capture_output=True, timeout=60)

    def packed(self, name, text):
        """The bytes of a store, which are packed while no call fails."""
        self.assertEqual(self.pack(name, text, 0).returncode, 0)
        return self.read(name)

    def test_each_failing_call_leaves_the_old_store_or_the_new_one(self):
        self.write("lines", self.old)
        replaced = []
        for call in range(1, 1000):
            done = self.pack("lines", LINES, call, "--replace")
            self.assert_missing("lines.part")
            if done.returncode == 0:
                break
            what = f"call {call}: {done.stderr}"
            self.assertEqual(done.returncode, 1, what)
            self.assertTrue(done.stderr, what)
            is_replaced = self.read("lines") == self.new
            self.assertTrue(is_replaced or not replaced and self.read("lines") == self.old, what)
            replaced += [call] if is_replaced else []
        self.assert_same(self.read("lines"), self.new, "the store at the end")
        self.assertGreater(call, 20, "calls")
        self.assertEqual(replaced, [call - 3, call - 2, call - 1], "calls after which the new store has its name")

    def test_each_failing_call_of_a_new_store_leaves_it_whole_or_no_file(self):
        for call in range(1, 1000):
            done = self.pack("lines", LINES, call)
            self.assert_missing("lines.part")
            if done.returncode == 0:
                break
            self.assertEqual(done.returncode, 1, f"call {call}: {done.stderr}")
            if "lines" in self.names():
                self.assert_same(self.read("lines"), self.new, f"call {call}")
                (self.folder / "lines").unlink()
        self.assert_same(self.read("lines"), self.new, "the store at the end")
        self.assertGreater(call, 20, "calls")
