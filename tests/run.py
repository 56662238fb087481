#!/usr/bin/env python3
"""Runs the tests of the repository's documents and scripts, and of what its gate builds.

A suite is a folder beside this file; what it tests is the first line of its `__init__.py`. A name may go on to a
module, a class or a test: `program.test_words`. Without names all suites run of which what they need is built. The last
lines name each test that this machine can't run, and say how many passed and how many were skipped.
"""

from __future__ import annotations

import argparse
import importlib
import os
import subprocess
import sys
import unittest
from concurrent.futures import ThreadPoolExecutor, as_completed
from pathlib import Path

from harness import BUILT, NEEDED

TESTS = Path(__file__).resolve().parent
SUITES = (
    "documents", "scripts", "planted", "program", "files", "replay", "pages", "vectors", "lists",
    "sessions", "library", "packages", "answers",
)


class Result(unittest.TextTestResult):
    """Counts the tests that passed, and keeps a line for each that was skipped."""

    def __init__(self, *words, **how) -> None:
        super().__init__(*words, **how)
        self.passed = 0
        self.skip_lines: list[str] = []
        self.faults_before = 0
        self.is_skipped = False

    def faults(self) -> int:
        """How many failures and errors there are so far."""
        return len(self.failures) + len(self.errors) + len(self.unexpectedSuccesses)

    def startTest(self, test) -> None:
        super().startTest(test)
        self.faults_before, self.is_skipped = self.faults(), False

    def addSkip(self, test, reason) -> None:
        super().addSkip(test, reason)
        self.skip_lines.append(f"skipped: {test.id()}: {reason}")
        # A part of a test may be skipped by itself; the test goes on.
        self.is_skipped = self.is_skipped or isinstance(test, unittest.TestCase) and not hasattr(test, "test_case")

    def stopTest(self, test) -> None:
        super().stopTest(test)
        if not self.is_skipped and self.faults() == self.faults_before:
            self.passed += 1


def missing(suite: str) -> str:
    """What a suite needs and isn't built; nothing if all of it is."""
    needs = importlib.import_module(suite).NEEDS
    return "; ".join(filter(None, (thing.lack() for thing in NEEDED if thing.name in needs)))


def chosen(names: list[str]) -> list[str]:
    """The names to run: those that are given, or else the suites of which what they need is built."""
    for name in names:
        suite = name.split(".")[0]
        if suite not in SUITES:
            sys.exit(f"no suite is named {suite}; the suites are {', '.join(SUITES)}")
        if lack := missing(suite):
            sys.exit(f"{suite}: {lack}")
    if names:
        return names
    lacks = {suite: missing(suite) for suite in SUITES}
    for suite, lack in lacks.items():
        if lack:
            print(f"not run: {suite}: {lack}", flush=True)
    return [suite for suite, lack in lacks.items() if not lack]


def tests_of(name: str) -> unittest.TestSuite:
    """The tests of a suite, or of what is named below it."""
    loader = unittest.TestLoader()
    if "." in name:
        return loader.loadTestsFromName(name)
    return loader.discover(str(TESTS / name), top_level_dir=str(TESTS))


def words() -> argparse.Namespace:
    """The words of the command line."""
    parser = argparse.ArgumentParser(description=__doc__, formatter_class=argparse.RawDescriptionHelpFormatter)
    parser.add_argument("names", nargs="*", metavar="SUITE", help=", ".join(SUITES))
    for thing in BUILT:
        text = f"default: ${thing.variable}, or {thing.default}"
        parser.add_argument(f"--{thing.name}", metavar="PATH", help=text)
    parser.add_argument("--jobs", type=int, default=1, help="how many suites run side by side, each in its own process")
    parser.add_argument("--beside", metavar="PID", help="a process that builds what the suite planted waits for")
    parser.add_argument("--pictures", metavar="FOLDER", help="where the suite pages leaves each page as pictures")
    parser.add_argument("-v", "--verbose", action="store_true", help="print the name of each test")
    return parser.parse_args()


def set_paths(options: argparse.Namespace) -> None:
    """Gives the options to the tests, by the environment."""
    variables = {thing.name: thing.variable for thing in BUILT} | {"pictures": "ZEVKHADUN_TEST_PICTURES"}
    for name, variable in variables.items():
        if path := getattr(options, name):
            os.environ[variable] = str(Path(path).absolute())
    if options.beside:
        os.environ["ZEVKHADUN_TEST_BESIDE"] = options.beside


def side_by_side(names: list[str], jobs: int) -> int:
    """Runs each in a process of its own, several at a time, and prints what it printed once it has ended."""
    def ran(name: str) -> subprocess.CompletedProcess:
        command = [sys.executable, __file__, name]
        return subprocess.run(command, stdout=subprocess.PIPE, stderr=subprocess.STDOUT, text=True)

    failed = []
    with ThreadPoolExecutor(jobs) as pool:
        runs = {pool.submit(ran, name): name for name in names}
        for run in as_completed(runs):
            print(f"-- {runs[run]}\n{run.result().stdout}", end="", flush=True)
            failed += [runs[run]] if run.result().returncode else []
    if failed:
        print(f"failed: {', '.join(failed)}", flush=True)
    return int(bool(failed))


def main() -> int:
    options = words()
    set_paths(options)
    names = chosen(options.names)
    if options.jobs > 1:
        return side_by_side(names, options.jobs)
    suite = unittest.TestSuite(tests_of(name) for name in names)
    runner = unittest.TextTestRunner(resultclass=Result, verbosity=2 if options.verbose else 1)
    result = runner.run(suite)
    sys.stderr.flush()
    print(*result.skip_lines, sep="\n", end="\n" if result.skip_lines else "")
    failed = f", {result.faults()} failures" if result.faults() else ""
    print(f"{result.passed} tests passed, {len(result.skip_lines)} skipped{failed}", flush=True)
    return 0 if result.wasSuccessful() and result.testsRun else 1


if __name__ == "__main__":
    sys.exit(main())
