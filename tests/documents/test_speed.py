"""What the documents say of speed comes from the measurements, or names them."""

from __future__ import annotations

import re
import subprocess
import sys
from collections import Counter
from collections.abc import Iterator
from pathlib import Path

from documents.case import Rules
from documents.pages import at, documents, prose, text_of
from harness import TOP

BENCH = TOP / "bench"
HOME = TOP / "docs/PERFORMANCE.md"
# What was, and a page of figures that a script writes.
LEFT_OUT = {TOP / "CHANGELOG.md", TOP / "docs/plots/README.md"}
# Pages whose sentences about speed need no link: the home of the figures, and how they are measured.
HOMES = {HOME, BENCH / "README.md"}
PART = re.compile(r"^<!-- figures: ([a-z ]+) -->\n(.*?)^<!-- end of figures -->\n", re.M | re.S)
TIME = r"\d[\d.,]* ?(?:ns|µs|ms)\b|\d[\d.,]* ?[MG]B/s|\b[\d.]+ times (?:as|LMDB|the time)"
WORDS = (
    r"\b(?:faster|slower|quicker|fastest|slowest|quickest|(?:less|more) time|takes? longer|took longer|"
    r"times as (?:long|fast|quick))\b"
)
FIGURE = re.compile(TIME)
SPEED = re.compile(f"{WORDS}|{TIME}", re.I)
SOURCE = re.compile(r"PERFORMANCE\.md|bench/\w+\.json|\]\(#speed\)")
Paragraph = tuple[int, str]


def paragraphs(path: Path) -> Iterator[Paragraph]:
    """The paragraphs and the points of lists of a page, each with its first line; parts that are made are left out."""
    made = {number for number, line in numbered_parts(path)}
    lines = dict(prose(path))
    first, found = 0, ""
    for number in range(1, max(lines, default=0) + 2):
        line = "" if number in made else lines.get(number, "")
        if found and (not line.strip() or re.match(r"\s*(?:- |\d+\. |\|)", line)):
            yield first, found
            found = ""
        if line.strip():
            first, found = (first, f"{found} {line.strip()}") if found else (number, line.strip())


def numbered_parts(path: Path) -> Iterator[tuple[int, str]]:
    """The lines of the parts that are made of the measurements."""
    text = text_of(path)
    for part in PART.finditer(text):
        start = text.count("\n", 0, part.start()) + 1
        yield from enumerate(part[0].splitlines(), start)


def speed_fault(path: Path, text: str) -> str:
    """What is wrong with a paragraph about speed; nothing if it names its figures, or says nothing of speed."""
    if path in HOMES:
        found = FIGURE.search(text)
        return f"a figure that bench/pages.py doesn't write: {found[0]}" if found else ""
    found = SPEED.search(text)
    if not found or SOURCE.search(text):
        return ""
    return f"a sentence about speed that doesn't name the measurements: {found[0]}"


def output_of(script: str) -> str:
    """What a line of Python prints beside the scripts of the benchmark."""
    done = subprocess.run([sys.executable, "-c", script], cwd=BENCH, capture_output=True, text=True)
    return done.stdout + done.stderr


class Speed(Rules):
    def assert_made(self, script: str) -> None:
        """A script of the benchmark would write what is there."""
        done = subprocess.run([sys.executable, str(BENCH / script), "--check"], capture_output=True, text=True)
        self.assertEqual(done.returncode, 0, done.stderr or f"bench/{script} fails")

    def test_the_figures_of_the_pages_are_made_of_the_measurements(self):
        self.assert_made("pages.py")

    def test_the_plots_are_made_of_the_measurements(self):
        self.assert_made("plot.py")

    def test_each_part_that_is_made_has_one_place(self):
        names = Counter(part[1] for page in documents() for part in PART.finditer(text_of(page)))
        parts = output_of("import pages; print(*pages.PARTS, sep='\\n')").splitlines()
        self.assertEqual(names, Counter(parts))
        self.assert_looked_at(len(parts), 20, "parts")

    def test_a_sentence_about_speed_names_the_measurements(self):
        found = [(page, line, text) for page in documents() if page not in LEFT_OUT for line, text in paragraphs(page)]
        faults = ((page, line, speed_fault(page, text)) for page, line, text in found)
        self.assert_no_faults(at(page, line, fault) for page, line, fault in faults if fault)
        self.assert_looked_at(sum(bool(SPEED.search(text)) for _, _, text in found), 8, "sentences about speed")

    def test_the_figures_are_of_one_machine_which_is_named_with_its_kit(self):
        parts = dict(PART.findall(text_of(HOME)))
        self.assertRegex(" ".join(parts["machine"].split()), r"one machine: .*; the kit rattle-kit")
        others = [at(HOME, line, text) for line, text in paragraphs(HOME) if re.search(r"\b(?:Xeon|GHz|EPYC)\b", text)]
        self.assert_no_faults(others)


class Finding(Rules):
    def test_a_sentence_about_speed_is_found(self):
        page = TOP / "docs/WHY.md"
        for text in ("it is faster", "a get takes 35 ns", "3 times as fast as one", "it needs less time than LMDB"):
            with self.subTest(text):
                self.assertTrue(speed_fault(page, text))
                self.assertFalse(speed_fault(page, f"{text} ([figures](PERFORMANCE.md))"))

    def test_a_figure_beside_the_parts_is_found(self):
        self.assertTrue(speed_fault(HOME, "an open takes 215 µs"))
        self.assertFalse(speed_fault(HOME, "an open takes longer"))
