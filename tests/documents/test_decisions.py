"""docs/DECISIONS.md is a list of short records by topic: a question, the date, what was chosen, and why."""

from __future__ import annotations

import re
from collections.abc import Iterator

from documents.case import Rules
from documents.pages import at, text_of
from harness import TOP

PAGE = TOP / "docs/DECISIONS.md"
DATE = re.compile(r"\*\d{1,2} (?:January|February|March|April|May|June|July|August|September|October|November|December)"
                  r" \d{4}\.\* \S")
MOST_LINES = 9


def records() -> list[tuple[int, str, list[str]]]:
    """Each record: the line of its heading, its question, and the lines of its text."""
    lines = text_of(PAGE).splitlines()
    heads = [i for i, line in enumerate(lines) if line.startswith("#")] + [len(lines)]
    return [
        (begin + 1, lines[begin][4:], [line for line in lines[begin + 1:end] if line])
        for begin, end in zip(heads, heads[1:])
        if lines[begin].startswith("### ")
    ]


def record_faults(question: str, text: list[str]) -> Iterator[str]:
    """What is wrong with a record."""
    if not question.endswith("?"):
        yield "no question"
    if not text or not DATE.match(text[0]):
        yield "no date at the beginning"
    if len(text) > MOST_LINES:
        yield f"{len(text)} lines"


class Decisions(Rules):
    def test_each_decision_has_a_question_a_date_and_few_lines(self):
        found = records()
        faults = ((line, question, fault) for line, question, text in found for fault in record_faults(question, text))
        self.assert_no_faults(at(PAGE, line, f"{question} {fault}") for line, question, fault in faults)
        self.assert_looked_at(len(found), 100, "decisions")

    def test_no_question_stands_between_the_records(self):
        """A question in bold type would be a record that the other rule doesn't see."""
        lines = enumerate(text_of(PAGE).splitlines(), 1)
        self.assert_no_faults(at(PAGE, number, line) for number, line in lines if re.match(r"\*\*[^*]*\?\*\*", line))

    def test_the_index_has_each_topic(self):
        text = text_of(PAGE)
        topics = re.findall(r"^## (.*)$", text, re.M)
        self.assertEqual(re.findall(r"^- \[([^]]*)\]\(#", text, re.M), topics)
        self.assert_looked_at(len(topics), 10, "topics")
