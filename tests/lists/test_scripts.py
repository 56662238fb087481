"""The scripts of the outside vectors, each answered byte for byte as tantivy's own code or the format's rows do."""

from __future__ import annotations

import subprocess

from harness import SECONDS, STORETOOL, Case
from vectors.files import DATA


class Scripts(Case):
    def test_each_script_of_the_vectors_is_answered_as_expected(self):
        scripts = sorted(DATA.glob("*.script"))
        self.assertEqual(len(scripts), 39, "scripts")
        for script in scripts:
            with self.subTest(script=script.stem), script.open("rb") as lines:
                done = subprocess.run([STORETOOL.path()], stdin=lines, capture_output=True, timeout=SECONDS)
                self.assertEqual(done.returncode, 0, done.stderr)
                self.assert_same(done.stdout, script.with_suffix(".expected").read_bytes(), "the answers")
