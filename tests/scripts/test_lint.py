"""shellcheck and flake8 find nothing, no script and no line is long, and a silenced rule has its reason beside it."""

from __future__ import annotations

import re
import subprocess
from pathlib import Path

from documents.pages import at, files, text_of
from harness import TOP, Case

SCRIPTS = [*files("tests", "tools", "bench", "bindings", "examples", ".ci"), TOP / "dist.sh"]
PYTHON = [path for path in SCRIPTS if path.suffix == ".py"]
SHELL = [path for path in SCRIPTS if path.suffix == ".sh" or re.match(r"#!.*\b(?:ba)?sh\b", text_of(path))]
LONGEST = 400
# How many columns the lines of a language have at most.
WIDTHS = {".antt": 200, ".rt": 120, ".rs": 120, ".c": 120, ".h": 120, ".py": 120, ".sh": 120}
# What silences a rule: it is a comment, and a reason follows in brackets or stands on the line before.
SILENCES = re.compile(r"# (?:noqa|shellcheck disable)\b(.*)")


def silence_faults(path: Path) -> list[str]:
    """The lines of a script that silence a rule without a reason beside it."""
    lines = text_of(path).splitlines()
    found = []
    for number, line in enumerate(lines, 1):
        silence = SILENCES.search(line)
        before = lines[number - 2].strip() if number > 1 else ""
        if silence and "(" not in silence[1] and not before.startswith("#"):
            found.append(f"{path.relative_to(TOP)}:{number}: a rule is silenced without a reason")
    return found


class Lint(Case):
    def assert_silent(self, command: list[str], scripts: list[Path]) -> None:
        """A command prints nothing of any of these scripts, and ends with 0."""
        self.assertTrue(scripts, "there is no script")
        self.require(command[0])
        done = subprocess.run([*command, *scripts], cwd=TOP, capture_output=True, text=True, timeout=300)
        self.assertEqual(done.returncode, 0, f"\n{done.stdout}{done.stderr}")
        self.assertEqual(done.stdout + done.stderr, "")

    def test_shellcheck_finds_nothing(self):
        self.assert_silent(["shellcheck", "--external-sources"], SHELL)

    def test_flake8_finds_nothing(self):
        self.assert_silent(["flake8"], PYTHON)

    def test_a_rule_that_is_silenced_has_a_reason(self):
        faults = [fault for path in SHELL + PYTHON if path.name != "test_lint.py" for fault in silence_faults(path)]
        self.assertEqual(faults, [])

    def test_no_script_is_long(self):
        lengths = {str(path.relative_to(TOP)): len(text_of(path).splitlines()) for path in SHELL + PYTHON}
        self.assertEqual({name: length for name, length in lengths.items() if length >= LONGEST}, {})

    def test_no_line_of_code_is_long(self):
        code = [path for path in files(".") if path.suffix in WIDTHS]
        self.assertGreater(len(code), 500, "few files of code are found")
        faults = [
            at(path, number, f"{len(line)} columns")
            for path in code
            for number, line in enumerate(text_of(path).splitlines(), 1)
            if len(line) > WIDTHS[path.suffix]
        ]
        self.assertEqual(faults, [])
