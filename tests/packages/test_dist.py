"""What dist.sh makes is used by the pages, in a folder that has `dist` and nothing else of the repository.

A block of a page is used if the line before it is <!-- run by: tests/packages/test_dist.py -->. A block of a shell is
run; the marker may say what it prints, as `; prints: one | two`. Any other block is a file, whose name the marker has,
as `; file: print_store.c`.
"""

from __future__ import annotations

import ctypes
import re
import tarfile
import zipfile
from pathlib import Path

from documents import pages
from harness import TOP
from packages.dist import DistCase, dist, hidden, new_dist
from packages.installed import PACKAGE

VERSION = (TOP / "VERSION").read_text().strip()
MARKER = re.compile(r"<!-- run by: tests/packages/test_dist\.py(?:; (prints|file): (.*?))? -->")
# The Python of a page, which is run where the package is installed, and what the first of it prints.
PIECE = re.compile(r"<!-- run by: bindings/python/tests/test_documents\.py -->\n```python\n(.*?)^```$", re.S | re.M)
ARCHIVE = f"zevkhadun-{VERSION}-linux-x86_64"
HEADERS = {"zevkhadun.h", "zevkhadun.hpp", "zevkhadun_file.h"}
LIBRARIES = {"libzevkhadun.a", "libzevkhadun.so", "libzevkhadun.so.1", "pkgconfig/zevkhadun.pc"}
SHELL = {
    "man/man1/zevkhadun.1", "bash-completion/completions/zevkhadun", "zsh/site-functions/_zevkhadun",
    "fish/vendor_completions.d/zevkhadun.fish",
}
INSTALLED = {"bin/zevkhadun", "LICENSE", "README.md"} | {f"share/{name}" for name in SHELL}
INSTALLED |= {f"include/{name}" for name in HEADERS} | {f"lib/{name}" for name in LIBRARIES}


def files_below(folder: Path) -> set[str]:
    """The names of the files below a folder."""
    return {str(path.relative_to(folder)) for path in folder.rglob("*") if not path.is_dir()}


class Used(DistCase):
    def test_nothing_of_the_repository_and_of_the_kit_is_seen(self):
        if not hidden():
            self.skipTest("no folder can be hidden here")
        self.assertEqual(self.alone("ls", TOP), "")
        self.assertEqual(self.alone("sh", "-c", "command -v rt rattle || echo none"), "none\n")

    def use(self, block: pages.Block) -> bool:
        """Does what a block says. Returns whether it is for this test."""
        marker = MARKER.fullmatch(block.marker)
        if marker is None:
            return False
        text = "\n".join(line.removeprefix("    ") if not block.language else line for line in block.lines) + "\n"
        if marker[1] == "file":
            self.write(marker[2], text.encode())
            return True
        printed = self.alone("bash", "-e", "-o", "pipefail", "-c", text)
        if marker[1] == "prints":
            self.assertEqual(printed.rstrip("\n").split("\n"), marker[2].split(" | "), text)
        return True

    def use_page(self, name: str) -> None:
        """Does what a page says."""
        used = [block for block in pages.blocks(TOP / name) if self.use(block)]
        self.assertTrue(used, f"{name} says nothing of dist")

    def test_the_commands_of_the_first_page_run(self):
        self.use_page("README.md")

    def test_the_commands_of_the_page_of_the_bindings_run(self):
        self.use_page("bindings/README.md")

    def test_the_commands_of_the_page_for_c_run(self):
        self.require("c++")
        self.use_page("bindings/c/README.md")

    def test_the_commands_of_the_page_for_rust_run(self):
        self.use_page("bindings/rust/README.md")

    def test_the_commands_of_the_page_for_python_run(self):
        self.require_pip()
        self.use_page("bindings/python/README.md")
        (piece,) = PIECE.findall((PACKAGE / "README.md").read_text())
        for python in ("environment/bin/python", "compiled/bin/python"):
            printed = self.alone(python, "-W", "error", "-c", piece)
            self.assertRegex(printed, r"\A3\n4 b'apple' b'date' \[b'banana', b'cherry'\]\n", python)
            # The piece replaces no file.
            (self.folder / "fruits.store").unlink()

    def test_the_archive_has_the_program_and_the_library(self):
        self.alone("tar", "-xzf", dist() / f"{ARCHIVE}.tar.gz")
        unpacked = self.folder / ARCHIVE
        self.assertEqual(files_below(unpacked), INSTALLED)
        for name in INSTALLED:
            self.assert_same((unpacked / name).read_bytes(), (dist() / name).read_bytes(), name)
        shown = self.alone(unpacked / "bin/zevkhadun", "--version")
        self.assertTrue(shown.startswith(f"zevkhadun {VERSION} (writes format "), shown)


class Made(DistCase):
    def test_the_folder_has_these_files_and_no_others(self):
        names = files_below(dist())
        (wheel,) = (name for name in names if name.endswith(".whl"))
        self.assertRegex(wheel, rf"^python/zevkhadun-{VERSION}-cp311-abi3-(?:manylinux_\d+_\d+|linux)_x86_64\.whl$")
        others = {f"{ARCHIVE}.tar.gz", f"python/zevkhadun-{VERSION}.tar.gz", f"rust/zevkhadun-{VERSION}.crate"}
        self.assertEqual(names, INSTALLED | others | {wheel, "SHA256SUMS"})

    def test_the_sums_are_those_of_all_files(self):
        printed = self.alone("sha256sum", "--check", "--strict", "SHA256SUMS", cwd=dist())
        checked = dict(line.split(": ") for line in printed.splitlines())
        self.assertEqual(set(checked), files_below(dist()) - {"SHA256SUMS", "lib/libzevkhadun.so"})
        self.assertEqual(set(checked.values()), {"OK"})

    def test_the_same_sources_make_the_same_files(self):
        again = new_dist(self.folder / "again")
        self.assertEqual((again / "SHA256SUMS").read_text(), (dist() / "SHA256SUMS").read_text())

    def test_each_part_has_the_version(self):
        (wheel,) = dist().glob("python/*.whl")
        with zipfile.ZipFile(wheel) as archive:
            metadata = archive.read(f"zevkhadun-{VERSION}.dist-info/METADATA").decode()
        self.assertIn(f"\nVersion: {VERSION}\n", metadata)
        for name, inside in (("python/zevkhadun-{}.tar.gz", "PKG-INFO"), ("rust/zevkhadun-{}.crate", "Cargo.toml")):
            with tarfile.open(dist() / name.format(VERSION)) as archive:
                text = archive.extractfile(f"zevkhadun-{VERSION}/{inside}").read().decode()
            self.assertRegex(text, re.compile(rf'^[Vv]ersion(?:: | = "){re.escape(VERSION)}"?$', re.M), name)
        library = ctypes.CDLL(str(dist() / "lib/libzevkhadun.so.1"))
        library.zevk_version.restype = ctypes.c_char_p
        self.assertEqual(library.zevk_version().decode(), VERSION)
        paths = {"PKG_CONFIG_PATH": str(dist() / "lib/pkgconfig")}
        self.assertEqual(self.succeed("pkg-config", "--modversion", "zevkhadun", env=paths).decode(), f"{VERSION}\n")
        self.assertIn(f"# Zevkhadun {VERSION}\n", (dist() / "README.md").read_text())

    def test_no_file_names_the_folder_in_which_it_was_made(self):
        for name in files_below(dist()) - {"lib/libzevkhadun.so"}:
            content = (dist() / name).read_bytes()
            for folder in (str(TOP), str(dist().parent)):
                self.assertNotIn(folder.encode(), content, name)

    def test_a_folder_of_another_kind_is_kept(self):
        self.write("kept", b"another's\n")
        with self.assertRaisesRegex(AssertionError, "was not made by this script"):
            new_dist(self.folder)
        self.assertEqual(self.read("kept"), b"another's\n")
