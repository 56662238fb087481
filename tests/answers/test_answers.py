"""The answers of C, Rust and Python are those of storetool.

Of each file the first 200 documents are got, the last one and the one after it. storetool answers scripts, and its
answers over the same vectors are those of tantivy's own code (tests/lists).
"""

from __future__ import annotations

import itertools
import json
import subprocess
from pathlib import Path

from harness import SECONDS, STORETOOL
from library.compiling import COMPILERS
from packages.cargo import example
from packages.installed import InstalledCase, environment, python
from vectors.files import files

FIRST = 200
NUMBERS = 2**32
# Prints what the package for Python answers about each file, as lists of lines in JSON.
BY_PACKAGE = f"""
import json, sys
from zevkhadun import RangedStore, Store
from zevkhadun.refusals import Refused

def document_of(store, doc_id):
    try:
        return store[doc_id].hex() or "-"
    except Refused as refusal:
        return f"error {{refusal.number}}"

def by_ranges(path):
    content = open(path, "rb").read()
    return RangedStore(lambda start, length: content[start:start + length], len(content))

def answers_of(path):
    try:
        with Store(path) as store, Store(path, check=False) as unchecked, by_ranges(path) as ranged:
            num_docs = len(store)
            assert len(unchecked) == num_docs, path
            numbers = [*range(min(num_docs, {FIRST})), (num_docs - 1) % {NUMBERS}, num_docs]
            answers = [document_of(store, doc_id) for doc_id in numbers]
            for other in (unchecked, ranged):
                assert [document_of(other, doc_id) for doc_id in numbers] == answers, path
            return [f"docs {{num_docs}}"] + answers
    except Refused as refusal:
        return [f"error {{refusal.number}}"]

json.dump([answers_of(path) for path in sys.argv[1:]], sys.stdout)
"""


def numbers_of(num_docs: int) -> list[int]:
    """The numbers of the documents that are got."""
    return [*range(min(num_docs, FIRST)), (num_docs - 1) % NUMBERS, num_docs]


def cut(lines: list[str]) -> list[list[str]]:
    """The lines of a program, cut at each file's first one."""
    answers: list[list[str]] = []
    left = 0
    for line in lines:
        if left:
            answers[-1].append(line)
            left -= 1
        else:
            answers.append([line])
            left = len(numbers_of(int(line[5:]))) if line.startswith("docs ") else 0
    return answers


def run_tool(lines: list[str]) -> list[str]:
    """What storetool answers to a script."""
    text = "".join(f"{line}\n" for line in lines)
    done = subprocess.run([STORETOOL.path()], input=text, capture_output=True, text=True, timeout=SECONDS, check=True)
    return done.stdout.splitlines()


def by_tool(contents: list[bytes], counts: list[int | None]) -> list[list[str]]:
    """The answers of storetool about each file, with as many documents as it has; None for one that isn't opened."""
    loads = ["load " + content.hex() for content in contents]
    opened = [count for count in counts if count is not None]
    gets = [f"get {store} {doc_id}" for store, count in enumerate(opened) for doc_id in numbers_of(count)]
    lines = run_tool(loads + gets)
    documents = iter(lines[len(loads):])
    answers = []
    for line, count in zip(lines, counts):
        if line.startswith("store ") != (count is not None):
            raise AssertionError(f"storetool and the package for Python do not open the same files: {line}")
        head = line if count is None else f"docs {count}"
        answers.append([head, *itertools.islice(documents, 0 if count is None else len(numbers_of(count)))])
    return answers


class Answers(InstalledCase):
    def setUp(self):
        super().setUp()
        self.contents = files()
        self.paths = [self.write(f"{place}.store", content) for place, content in enumerate(self.contents)]
        self.package = self.by_package()
        self.counts = [int(head[5:]) if head.startswith("docs ") else None for head, *_ in self.package]
        self.expected = by_tool(self.contents, self.counts)

    def by_package(self) -> list[list[str]]:
        """The answers of the package for Python, where it is installed."""
        return json.loads(self.succeed(python(), "-c", BY_PACKAGE, *self.paths, env=environment()))

    def assert_answers(self, name: str, answers: list[list[str]]) -> None:
        """The answers about each file are those of storetool."""
        for place, (answer, wanted) in enumerate(itertools.zip_longest(answers, self.expected)):
            if answer != wanted:
                self.fail(f"file {place}, {name}: {(answer or [])[:9]}, and storetool {(wanted or [])[:9]}")

    def assert_program(self, name: str, program: Path) -> None:
        """The lines of a program are the answers of storetool."""
        self.assert_answers(name, cut(self.succeed(program, *self.paths).decode().splitlines()))

    def test_some_files_are_opened_and_some_are_not(self):
        opened = sum(count is not None for count in self.counts)
        self.assertTrue(0 < opened < len(self.contents), f"{opened} of {len(self.contents)} files are opened")

    def test_python_answers_as_storetool(self):
        self.assert_answers("Python", self.package)

    def test_rust_answers_as_storetool(self):
        self.require("cargo")
        self.assert_program("Rust", example("answers"))

    def test_c_and_cpp_answer_as_storetool(self):
        for compiler in COMPILERS:
            for in_cpp in (False, True):
                name = " ".join([compiler.cpp if in_cpp else compiler.c, *compiler.sanitizers])
                with self.subTest(name):
                    self.require_compiler(compiler)
                    self.assert_program(name, self.compiled_by(compiler, "answers.c", in_cpp))
