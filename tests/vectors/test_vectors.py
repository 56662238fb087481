"""Where a store is sound, `get` and `cat` give the same; where it isn't, some command fails with one line."""

from __future__ import annotations

import subprocess

from harness import ProgramCase
from vectors.files import files


class Vectors(ProgramCase):
    def run_reader(self, *words: str) -> subprocess.CompletedProcess:
        """Runs a command, which has to end by itself, and to fail with one line or, for `verify`, one verdict."""
        done = self.program.run(*words)
        said = done.stderr.decode(errors="replace")
        self.assertIn(done.returncode, (0, 1), said)
        self.assertEqual(said.count("\n"), int(done.returncode == 1 and words[0] != "verify"), said)
        return done

    def is_sound(self, name: str) -> bool:
        """Whether a file is a sound store. All commands that read have to agree on it."""
        verdict, stat = (self.run_reader(*words, name).returncode for words in (("verify", "-q"), ("stat",)))
        whole = self.run_reader("cat", name, "--framing", "lengths")
        single = self.run_reader("get", name, "0..", "--framing", "lengths")
        page = self.run_reader("inspect", name, "--html", f"{name}.html")
        self.assertEqual((whole.returncode, whole.stdout), (single.returncode, single.stdout), "cat and get differ")
        self.assertEqual(stat, page.returncode, "stat and inspect differ")
        if verdict == 0:
            self.assertEqual((whole.returncode, stat), (0, 0), "it is sound, and can't be read")
        if stat == 0:
            self.check_salvage(name, whole)
        return verdict == 0

    def check_salvage(self, name: str, whole: subprocess.CompletedProcess) -> None:
        """What `cat --keep-going` prints is all but what `verify --list` lists: all, if that is nothing."""
        listed = self.program.run("verify", "--list", name).stdout
        ids = str(self.write(f"{name}.ids", listed))
        kept = self.program.run("cat", "--keep-going", name, "--framing", "lengths")
        others = self.program.gives("cat", name, "--without", f"@{ids}", "--framing", "lengths")
        self.assertEqual((kept.stdout, kept.returncode), (others, 1 if listed else 0))
        if not listed:
            self.assertEqual((whole.returncode, whole.stdout), (0, others))

    def test_all_commands_agree_on_each_file(self):
        contents = files()
        counts = {True: 0, False: 0}
        for place, content in enumerate(contents):
            with self.subTest(file=place, content=content[:40].hex()):
                self.write(f"{place}.store", content)
                counts[self.is_sound(f"{place}.store")] += 1
        self.assertTrue(all(counts.values()), f"there is no sound file, or no broken one: {counts}")
        self.assertGreaterEqual(len(contents), 1112, "files of the vectors")
