"""The words that this house doesn't use, wherever somebody reads: documents, help texts, headers, docstrings, comments.

Each has a plain word in its place: `after` for behind, a number's name for so many, `in memory` for at hand, `returned`
or `reported` for told, `again` for anew. The names of code are no words: what stands between backticks is left out.
"""

from __future__ import annotations

import ast
import io
import re
import tokenize
import unittest
from collections.abc import Iterator
from pathlib import Path

from documents.case import Rules
from documents.pages import at, documents, files, prose, text_of

OLD_WORDS = (
    "so many", "at hand", "(?:is|are|was|were) told", "tells? of", "told of", "behind", "asked of", "hands? on",
    "handed (?:on|back)", "want of", "who has", "whoever", "stands? there", "as it stands", "words are wrong",
    "weighs? more", "owes?", "anew", "go(?:es|ne)? out", "(?:is|was) wanting",
)
# Whether the comments of the Rattle sources and of their definitions are looked at, too.
COVERS_RATTLE = True
# What may come between two words: spaces, and the sign of a comment at the beginning of the next line.
BETWEEN = r"\s+(?:(?:\*|#|--|//[/!]?)\s+)?"
FORM = re.compile(r"\b(?:" + "|".join(OLD_WORDS).replace(" ", BETWEEN) + r")\b", re.I)
CODE = ("bindings", "bench", "examples", "tests", "tools", ".ci")
SLASHES = re.compile(r"//.*$")
HASHES = re.compile(r"(?:^|\s)#.*$")
DASHES = re.compile(r"^\s*--.*$")
Line = tuple[int, str]


def page_lines(path: Path) -> list[Line]:
    """The prose of a page."""
    return prose(path)


def all_lines(path: Path) -> list[Line]:
    """A text of which all is read by people."""
    return list(enumerate(text_of(path).splitlines(), 1))


def parts_of_lines(path: Path, form: re.Pattern) -> list[Line]:
    """The part of each line that is a comment."""
    found = ((number, form.search(line)) for number, line in all_lines(path))
    return [(number, part[0]) for number, part in found if part]


def slash_comments(path: Path) -> list[Line]:
    """The comments of Rust and Rattle."""
    return parts_of_lines(path, SLASHES)


def hash_comments(path: Path) -> list[Line]:
    """The comments of a shell's script."""
    return parts_of_lines(path, HASHES)


def dash_comments(path: Path) -> list[Line]:
    """The comments of definitions."""
    return parts_of_lines(path, DASHES)


def python_words(path: Path) -> list[Line]:
    """The comments and the docstrings of a module."""
    text = text_of(path)
    tokens = tokenize.generate_tokens(io.StringIO(text).readline)
    found = [(token.start[0], token.string) for token in tokens if token.type == tokenize.COMMENT]
    for node in ast.walk(ast.parse(text)):
        if isinstance(node, (ast.Module, ast.ClassDef, ast.FunctionDef)) and ast.get_docstring(node):
            words = node.body[0].value
            found += enumerate(words.value.splitlines(), words.lineno)
    return sorted(found)


READERS = {
    ".md": page_lines, ".txt": all_lines, ".h": all_lines, ".hpp": all_lines, ".c": all_lines, ".cpp": all_lines,
    ".py": python_words, ".pyi": python_words, ".rs": slash_comments, ".sh": hash_comments, ".rt": slash_comments,
    ".antt": dash_comments,
}


def texts() -> Iterator[tuple[Path, list[Line]]]:
    """Each file with the lines of it that people read."""
    crates = files("crates") if COVERS_RATTLE else ()
    rattle = (path for path in crates if path.suffix == ".rt" or path.suffix == ".antt" and "specs" in path.parts)
    for path in dict.fromkeys([*documents(), *files(*CODE), *rattle]):
        if path.suffix in READERS:
            yield path, READERS[path.suffix](path)


def faults_of(path: Path, lines: list[Line]) -> Iterator[str]:
    """Where lines have a word of the list; a word may go on in the next line."""
    numbers = [number for number, line in lines for _ in range(len(line) + 1)]
    text = "\n".join(line for _, line in lines)
    bare = re.sub(r"`[^`]*`", lambda code: re.sub(r"\S", "-", code[0]), text)
    for found in FORM.finditer(bare):
        yield at(path, numbers[found.start()], f"a word of the list: {' '.join(found[0].split())}")


class HouseWords(Rules):
    def test_no_text_has_a_word_of_the_list(self):
        own = Path(__file__).resolve()
        looked = [(path, lines) for path, lines in texts() if path.resolve() != own]
        self.assert_no_faults(fault for path, lines in looked for fault in faults_of(path, lines))
        self.assert_looked_at(len(looked), 150, "texts")
        self.assert_looked_at(sum(len(lines) for _, lines in looked), 8000, "lines")


class Finding(unittest.TestCase):
    def test_a_word_is_found_wherever_it_stands(self):
        for lines in (
            [(1, "the bytes behind it")], [(1, "it takes so"), (2, "many bytes")], [(1, " * bytes at"), (2, " * hand")],
            [(1, "It IS TOLD by a call")],
        ):
            with self.subTest(lines):
                self.assertEqual(len(list(faults_of(Path(__file__), lines))), 1)

    def test_the_names_of_code_are_no_words(self):
        for lines in ([(1, "the clause `behind`")], [(1, "a beehive, behindhand")], [(1, "what it told")]):
            with self.subTest(lines):
                self.assertEqual(list(faults_of(Path(__file__), lines)), [])
