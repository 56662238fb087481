"""docs/TROUBLESHOOTING.md has each error that the program prints and the library returns, and no other."""

from __future__ import annotations

import re

from documents.case import Rules
from documents.pages import text_of
from harness import TOP

PAGE = TOP / "docs/TROUBLESHOOTING.md"
ERRORS = TOP / "crates/store_base/src/error.rt"
# The files whose attributes have the texts of errors, and those that write texts of errors and faults.
DECLARED = (
    "store_commands/src/request_error.rt", "store_files/src/create_error.rt", "document_framing/src/fault.rt",
)
WRITTEN = {
    "program_base/src/failure.rt": r'(?:write!\(\s*f,\s+|f\.write_str\(|FailureCause::\w+ => )"([^;"][^"]*)"',
    "program_base/src/log_refusal.rt": r'LogRefusal::\w+ => \(\s*"([^"]+)"',
    "program_stores/src/merge.rt": r'format!\(in alloc; "(--[^"]+)"',
    "store_commands/src/number_range.rt": r'"(\'\{word\}\'[^"]+)"',
    "store_commands/src/broken_part.rt": r'(?:f,\s+|f\.write_str\()"([^"]+)"',
    "store_commands/src/checking.rt": r'(?:f,\s+|f\.write_str\()"([^"]+)"',
}
# The crates of the program.
PROGRAM = ("program_base", "program_stores", "program_logs", "zevkhadun")
WRONG_WORDS = r'(?:wrong_words|check_name)\(\s*\w+(?:\.alloc\(\))?,\s+"([^"]+)"'


def crate_text(path: str) -> str:
    """The text of a file of a crate."""
    return text_of(TOP / "crates" / path)


def store_errors() -> str:
    """The part of the library's errors that declares those of a store."""
    return text_of(ERRORS).partition("pub enum StoreError")[2]


def source_texts() -> set[str]:
    """The texts of errors and faults in the sources of the program and the library, as these spell them."""
    texts = set(re.findall(r'#\[error\("([^"]+)"\)\]', store_errors()))
    for path in DECLARED:
        texts.update(re.findall(r'#\[error\("([^"]+)"\)\]', crate_text(path)))
    for path, form in WRITTEN.items():
        texts.update(re.findall(form, crate_text(path)))
    for crate in PROGRAM:
        for path in (TOP / "crates" / crate / "src").rglob("*.rt"):
            texts.update(f"{why}: '{{word}}'" for why in re.findall(WRONG_WORDS, text_of(path)))
    # The program has texts of its own for compressed blocks and a damaged index.
    texts -= {"block kind {0} is not raw", "index is not the encoding of a list of checkpoints"}
    return {text for text in texts if re.search("[a-z]", re.sub(r"\{[^}]*\}", "", text))}


def section(heading: str) -> list[str]:
    """The lines below a heading."""
    parts = re.split(r"^## ", text_of(PAGE), flags=re.M)
    return next(part for part in parts if part.startswith(f"{heading}\n")).splitlines()


def entries(heading: str) -> set[str]:
    """The texts that the lists below a heading explain: that of each entry is between its first backticks."""
    found = (re.match(r"- `([^`]+)`: \S", line) for line in section(heading) if line.startswith("- "))
    return {entry[1] if entry else "an entry without a text" for entry in found}


def rows(heading: str) -> list[list[str]]:
    """The rows of the tables below a heading, without their heads."""
    lines = section(heading)
    tables = [line for i, line in enumerate(lines) if line.startswith("|")]
    heads = {i - 1 for i, line in enumerate(tables) if line.startswith("|---")}
    cells = [line for i, line in enumerate(tables) if i not in heads and not line.startswith("|---")]
    return [[cell.strip() for cell in re.split(r"(?<!\\)\|", line)[1:-1]] for line in cells]


def as_pattern(text: str) -> re.Pattern:
    """What a text of a source looks like on the page, where capitals stand for what it fills in."""
    parts = [re.escape(part) for part in re.split(r"\{[^}]*\}", text)]
    return re.compile(r"[A-Z]+".join(parts))


def library_errors() -> dict[int, tuple[str, str, str]]:
    """For each number: its name, its text and what is said of it in Rattle, as the tables have them."""
    found = {}
    for line in text_of(TOP / "bindings/refusals.txt").splitlines():
        if not line.startswith("#"):
            number, _, name, text = line.split(None, 3)
            found[int(number)] = (name, text, "")
    del found[0]
    for name, number in re.findall(r"StoreError::(\w+)(?:\(_\))? => (\d+)", text_of(ERRORS)):
        upper = re.sub(r"(?<=[a-z])(?=[A-Z])", "_", name).upper()
        here, text, _ = found.get(int(number), (upper, "", "Rattle"))
        in_rattle = "Rattle" if int(number) not in found else f"`{name}`" if here != upper else ""
        found[int(number)] = (here, text, in_rattle)
    return found


class Troubleshooting(Rules):
    def test_each_text_of_the_program_is_on_the_page_and_no_other(self):
        texts = source_texts()
        self.assert_looked_at(len(texts), 40, "texts")
        shown = entries("Errors of the program") | entries("What verify reports")
        patterns = {text: as_pattern(text) for text in texts}
        missing = sorted(text for text, form in patterns.items() if not any(map(form.fullmatch, shown)))
        unknown = sorted(one for one in shown if not any(form.fullmatch(one) for form in patterns.values()))
        self.assertEqual((missing, unknown), ([], []), "not on the page; not in the sources")

    def test_each_error_of_the_library_is_on_the_page_and_no_other(self):
        shown = {
            int(number): (name, text, in_rattle)
            for number, name, text, _, in_rattle in rows("Errors of the library, by number")
        }
        self.assertEqual(shown, library_errors())
