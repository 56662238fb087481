"""Each block of code of the documents has a marker that holds."""

from __future__ import annotations

import re
import unittest

import run
from documents import gate, pages
from documents.case import HEADER, Rules
from harness import TOP


def bare(lines: list[str]) -> list[str]:
    """Lines without indentation and comment signs, and without empty ones."""
    cut = (re.sub(r"^\s*(?://[/!]|\*(?!/)|#(?= ))?\s*", "", line).rstrip() for line in lines)
    return [line for line in cut if line]


def stands(lines: list[str], path: str) -> bool:
    """Whether the lines of a block stand in a file, one after the other."""
    wanted, found = bare(lines), bare(pages.text_of(TOP / path).splitlines())
    return bool(wanted) and any(found[i:i + len(wanted)] == wanted for i in range(len(found)))


def block_fault(block: pages.Block) -> str:
    """What is wrong with a block and its marker; nothing if all is well."""
    marker = re.fullmatch(r"<!-- (in|run by|by hand|shown): ([^;]+)(?:; .*)? -->", block.marker)
    if not marker:
        return "a block without a marker"
    kind, word = marker.groups()
    if kind == "shown":
        return f"a block of {block.language} is code" if block.language not in ("", "text") else ""
    if kind == "by hand":
        return ""
    if not (TOP / word).is_file():
        return f"no file {word}"
    if not gate.is_run(word):
        return f"the gate doesn't run {word}"
    return "" if kind == "run by" or stands(block.lines, word) else f"the block doesn't stand in {word}"


class Blocks(Rules):
    def test_each_block_has_a_marker_that_holds(self):
        blocks = [(page, block) for page in pages.documents() for block in pages.blocks(page)]
        faults = ((page, block, block_fault(block)) for page, block in blocks)
        self.assert_no_faults(pages.at(page, block.line, fault) for page, block, fault in faults if fault)
        self.assert_looked_at(len(blocks), 40, "blocks")

    def test_the_example_of_each_header_is_its_program(self):
        for header, name in ((HEADER, "first.c"), (HEADER.with_name("zevkhadun_file.h"), "print_store.c")):
            example = re.findall(r"^ \*     .*", pages.text_of(header).partition("#ifndef")[0], re.M)
            path = f"bindings/c/examples/{name}"
            self.assertTrue(stands(example, path), f"the example of {header} is not {path}")


class Gate(unittest.TestCase):
    """What the rule of the blocks takes for granted about the gate."""

    def test_the_gate_runs_each_suite(self):
        self.assertEqual(sorted(gate.suites()), sorted(run.SUITES))

    def test_each_folder_of_tests_is_a_suite(self):
        folders = [path.parent.name for path in (TOP / "tests").glob("*/test_*.py")]
        self.assertEqual(set(folders), set(run.SUITES))

    def test_what_the_gate_does_not_run_is_known(self):
        for path in ("tools/fuzz/run.sh", "examples/dask/distribute.py", "bindings/c/tests/none.c", "tests/none/x.py"):
            with self.subTest(path):
                self.assertFalse(gate.is_run(path))
