"""The words of the command line: help, version, and words that are wrong."""

from pathlib import Path

from harness import TOP, ProgramCase

HELP = Path(__file__).resolve().parent / "help"
COMMANDS = ("pack", "append", "get", "cat", "stat", "verify", "merge", "export", "inspect", "log")
LOG_COMMANDS = ("append", "get", "cat", "stat", "verify", "repair", "seal", "compact", "drop")
# The words of each command, and the name of the file that has its help.
HELP_TEXTS = [
    ((), "zevkhadun"), *(((command,), command) for command in COMMANDS),
    *((("log", command), f"log-{command}") for command in LOG_COMMANDS),
]
WRONG = (
    "", "pac x", "pack", "get x", "cat", "stat", "verify", "merge x", "inspect", "pack --framing bytes x y",
    "cat --jsn x", "append", "verify --list --json x", "get", "cat --json --number x",
)


class Words(ProgramCase):
    def test_each_help_is_its_text(self):
        for words, name in HELP_TEXTS:
            with self.subTest(name):
                given = self.program.gives(*words, "--help").decode()
                self.assertMultiLineEqual(given, (HELP / f"{name}.txt").read_text())

    def test_each_help_text_is_compared(self):
        names = {path.stem for path in HELP.iterdir()}
        self.assertEqual(names, {name for _, name in HELP_TEXTS})

    def test_the_version_is_that_of_the_repository(self):
        version = (TOP / "VERSION").read_text().strip()
        said = self.program.gives("--version").decode()
        self.assertEqual(said, f"zevkhadun {version} (writes format 3, reads formats 1 to 3)\n")

    def test_wrong_words_end_with_2_and_one_line(self):
        for words in WRONG:
            with self.subTest(words):
                done = self.program.run(*words.split())
                self.assertEqual((done.returncode, done.stdout), (2, b""), done.stderr)
                if words:
                    self.assertEqual(done.stderr.count(b"\n"), 1, done.stderr)
                    self.assertTrue(done.stderr.startswith(b"zevkhadun: "), done.stderr)

    def test_of_an_option_that_is_given_twice_the_last_one_counts(self):
        self.pack("a.store", b"a\0b\0c\0", "--framing", "lines", "--framing", "nul", "-qq")
        self.program.prints('"documents":3', "stat", "--json", "--json", "a.store")
        self.assertEqual(self.cat("a.store", "--without", "0", "--without", "2", "--framing", "lines"), b"b\n")

    def test_words_that_are_no_utf_8_end_with_2(self):
        self.program.fails(2, "have to be UTF-8", "cat", b"\xff")

    def test_a_misspelt_word_brings_a_suggestion(self):
        self.assertIn(b"pack", self.program.run("pac", "x").stderr)
