"""The functions that the libraries define, which are those of the headers."""

import re

from library.compiling import HEADER, PATH_HEADER, LibraryCase, names_in, prefix


class Symbols(LibraryCase):
    def defined(self, option, name):
        """The symbols that a library defines."""
        self.require("nm")
        lines = self.succeed("nm", option, "--defined-only", prefix() / "lib" / name).decode().splitlines()
        return [words[2] for words in map(str.split, lines) if len(words) == 3]

    def test_the_shared_library_has_the_functions_of_the_headers_and_no_others(self):
        lists = [names_in(path, r"^(?:const )?[a-z0-9_]+ \*?(zevk_[a-z_]+)\(") for path in (HEADER, PATH_HEADER)]
        self.assertTrue(all(lists), "a header has no function")
        declared = sorted(sum(lists, []))
        self.assertEqual(sorted(self.defined("-D", "libzevkhadun.so")), declared)

    def test_the_static_library_has_its_own_names_and_those_of_the_heap(self):
        names = self.defined("-g", "libzevkhadun.a")
        self.assertTrue(names, "the library defines nothing")
        self.assertEqual([name for name in names if not re.fullmatch(r"(zevk|rattle)_[a-z_]+", name)], [])
