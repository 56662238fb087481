"""The completions and the man page are those of the help texts, and shells take them.

`python3 tools/completions/write.py` writes them after a change of the help texts.
"""

from __future__ import annotations

import re
import subprocess
import sys

from harness import SECONDS, TOP, FolderCase

TOOL = TOP / "tools" / "completions" / "write.py"
SHELL = TOP / "bindings" / "shell"
HELP = TOP / "tests" / "program" / "help"
NAMES = [path.stem for path in HELP.iterdir() if path.stem != "zevkhadun"]
# The commands, and those below `log`, whose help is in `log-append.txt` and its neighbours.
COMMANDS = [*(name for name in NAMES if "-" not in name), "help"]
LOG_COMMANDS = [*(name.partition("-")[2] for name in NAMES if name.startswith("log-")), "help"]
# Completes the words that it is given as bash does when they stand before the cursor.
BASH = """
source "$1"
shift
complete -p zevkhadun
COMP_WORDS=("$@")
COMP_CWORD=$(($# - 1))
_zevkhadun
printf '%s\\n' "${COMPREPLY[@]}"
"""


class Written(FolderCase):
    def test_they_are_those_of_the_help_texts(self):
        subprocess.run([sys.executable, TOOL, self.folder], check=True, timeout=SECONDS)
        self.assertEqual(self.names(), sorted(path.name for path in SHELL.iterdir()))
        for name in self.names():
            text = (SHELL / name).read_text()
            self.assertMultiLineEqual(self.read(name).decode(), text, f"write {name} again: python3 {TOOL}")

    def test_each_command_and_each_option_is_in_each_of_them(self):
        words = {word.strip(",") for path in HELP.iterdir() for word in path.read_text().split()}
        options = {word for word in words if word.startswith("--") and word[2:].replace("-", "").isalpha()}
        for path in SHELL.iterdir():
            text = path.read_text().replace("\\-", "-").replace(" -l ", " --")
            missing = [word for word in sorted(options) + COMMANDS[:-1] + LOG_COMMANDS if word not in text]
            self.assertEqual(missing, [], path.name)


class Taken(FolderCase):
    def output(self, *command) -> str:
        """What a command prints in the test's folder. It prints no errors."""
        done = subprocess.run(command, cwd=self.folder, capture_output=True, text=True, timeout=SECONDS)
        self.assertEqual((done.returncode, done.stderr), (0, ""), command)
        return done.stdout

    def completed(self, *words: str) -> list[str]:
        """The words by which bash completes the last of these."""
        lines = self.output("bash", "-c", BASH, "", SHELL / "zevkhadun.bash", "zevkhadun", *words).splitlines()
        self.assertEqual(lines[0], "complete -o filenames -F _zevkhadun zevkhadun")
        return sorted(filter(None, lines[1:]))

    def test_bash_completes_commands(self):
        self.assertEqual(self.completed(""), sorted(COMMANDS))
        self.assertEqual(self.completed("pa"), ["pack"])
        self.assertEqual(self.completed("help", "me"), ["merge"])
        self.assertEqual(self.completed("log", ""), sorted(LOG_COMMANDS))
        self.assertEqual(self.completed("log", "se"), ["seal"])
        self.assertEqual(self.completed("--v"), ["--version"])

    def test_bash_completes_options_and_their_values(self):
        self.assertEqual(self.completed("pack", "--fr"), ["--framing"])
        self.assertEqual(self.completed("pack", "a.store", "--framing", "l"), ["lengths", "lines"])
        self.assertEqual(self.completed("cat", "--framing", "=", "nu"), ["nul"])
        self.assertEqual(self.completed("pack", "--block-size", ""), [])
        self.assertEqual(self.completed("log", "append", "events", "--sy"), ["--sync"])
        self.assertEqual(self.completed("log", "append", "--sync", "e"), ["end", "every"])

    def test_bash_completes_files_where_an_argument_names_one(self):
        for name in ("one.store", "one.txt", "two words.store"):
            self.write(name, b"")
        self.assertEqual(self.completed("get", "one"), ["one.store", "one.txt"])
        self.assertEqual(self.completed("get", "one.store", "one"), [])
        self.assertEqual(self.completed("get", "--framing", "text", "tw"), ["two words.store"])
        self.assertEqual(self.completed("merge", "all.store", "one.store", "one.s"), ["one.store"])
        self.assertEqual(self.completed("inspect", "one.store", "--html", "one.t"), ["one.txt"])
        self.assertEqual(self.completed("log", "get", "one"), ["one.store", "one.txt"])
        self.assertEqual(self.completed("log", "get", "one.store", "one"), [])
        self.assertEqual(self.completed("log", "append", "events", "one.t"), ["one.txt"])

    def test_shellcheck_finds_nothing(self):
        self.require("shellcheck")
        self.output("shellcheck", "--shell=bash", SHELL / "zevkhadun.bash")

    def test_zsh_reads_its_file(self):
        self.require("zsh")
        self.output("zsh", "-n", SHELL / "_zevkhadun")

    def test_fish_completes_commands_and_values(self):
        self.require("fish")
        cases = {
            "pa": "pack", "pack --framing nu": "nul", "verify --qu": "--quiet", "log se": "seal",
            "log append --sync ev": "every",
        }
        for words, wanted in cases.items():
            text = f"source {SHELL / 'zevkhadun.fish'}; complete -C 'zevkhadun {words}'"
            given = self.output("fish", "--no-config", "-c", text).splitlines()
            self.assertEqual([line.split("\t")[0] for line in given], [wanted], words)

    def test_the_man_page_is_set_without_a_warning(self):
        self.require("groff")
        page = self.output("groff", "-man", "-ww", "-Tutf8", "-K", "utf8", SHELL / "zevkhadun.1")
        self.assertIn("--block-size BYTES", re.sub(r".\x08", "", page))
