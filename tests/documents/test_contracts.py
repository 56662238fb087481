"""docs/contracts: the calls of each promise have the clauses that it names, and each wrong body has a promise."""

from __future__ import annotations

import re
from collections.abc import Iterator
from pathlib import Path

from documents import contracts
from documents.case import Rules
from documents.contracts import Group, Promise
from documents.pages import at, text_of
from harness import TOP
from planted.bodies import body

# The folders of a crate that have wrong bodies.
BODIES = ("must-fail", "planted")


def has_one(text: str, clauses: list[str]) -> bool:
    """Whether a contract has one of these clauses."""
    return any(contracts.has_clause(text, clause) for clause in clauses)


def group_faults(group: Group, files: dict[str, Path]) -> Iterator[str]:
    """What is wrong with calls and their clauses: each call is in its file, and each clause in one of the calls."""
    texts = []
    for call, label in group.calls:
        text = contracts.contract_of(call, files[label]) if label in files else None
        if text is None:
            yield f"{call} is not in {label}"
        texts.append(text or "")
    calls = ", ".join(call for call, _ in group.calls)
    if group.clauses and not any(contracts.is_type(call) for call, _ in group.calls):
        without = [call for (call, _), text in zip(group.calls, texts) if not has_one(text, group.clauses)]
        yield from (f"{call} has none of the clauses {', '.join(group.clauses)}" for call in without)
    for clause in group.clauses:
        if not any(contracts.has_clause(text, clause) for text in texts):
            yield f"no clause {clause} in {calls or 'no call'}"
    yield from (f"no definition has the word {word}" for word in group.definitions if word not in contracts.defined())


def promise_faults(promise: Promise) -> Iterator[str]:
    """What is wrong with a promise."""
    if not promise.sentence and promise.page.name != "refusals.md":
        yield "no sentence"
    if len(promise.items.get("By", [])) != 1:
        yield "not one item By"
    for kind, found in promise.items.items():
        if not kind or len(found) > 1:
            yield f"an item that is unknown or twice: {found[-1]}"
    files = {
        label: (promise.page.parent / path).resolve() for label, path in contracts.definitions(promise.page).items()
    }
    groups = [group for item in promise.items.get("By", []) for group in contracts.groups(item)]
    if not any(group.calls for group in groups):
        yield "no call with a link"
    for group in groups:
        yield from group_faults(group, files)
    for name, label in re.findall(r"\[(\w+)\](?:\[([\w/]+)\])?", " ".join(promise.items.get("Refused", []))):
        if files.get(label or name, Path()).name != f"{name}.edit":
            yield f"{name} is no wrong body"


def label_faults(page: Path) -> Iterator[str]:
    """What is wrong with the labels of a page: each is defined and used, and leads to the file that it names."""
    files, used = contracts.definitions(page), contracts.labels(page)
    yield from (f"no definition of [{label}]" for label in sorted(used - set(files)))
    yield from (f"nothing uses [{label}]" for label in sorted(set(files) - used))
    for label, path in files.items():
        crate, _, rest = label.rpartition("/") if path.endswith(".edit") else label.partition("/")
        kinds = [f"{folder}/{rest}.edit" for folder in BODIES] if path.endswith(".edit") else [f"src/{rest}"]
        if not any(Path(path).match(f"crates/{crate or '*'}/{wanted}") for wanted in kinds):
            yield f"[{label}] leads to {path}"
        if not (page.parent / path).is_file():
            yield f"no file {path}"


def wrong_bodies() -> list[Path]:
    """The files of all wrong bodies."""
    return [path for folder in BODIES for path in (TOP / "crates").glob(f"*/{folder}/*.edit")]


class Contracts(Rules):
    def test_the_calls_of_each_promise_have_the_clauses_that_it_names(self):
        promises = contracts.promises()
        faults = ((promise, fault) for promise in promises for fault in promise_faults(promise))
        self.assert_no_faults(at(one.page, one.line, f"{one.title}: {fault}") for one, fault in faults)
        self.assert_looked_at(len(promises), 270, "promises")

    def test_each_label_of_a_page_leads_to_the_file_that_it_names(self):
        faults = [(page, fault) for page in contracts.pages() for fault in label_faults(page)]
        self.assert_no_faults(at(page, 1, fault) for page, fault in faults)

    def test_each_wrong_body_belongs_to_a_promise(self):
        edits = {str(path.relative_to(TOP)) for path in wrong_bodies()}
        named = {path[len("../../"):] for page in contracts.pages() for path in contracts.definitions(page).values()}
        self.assertEqual(sorted(edits - named), [])
        self.assert_looked_at(len(edits), 100, "edits")

    def test_each_wrong_body_changes_one_function(self):
        for path in wrong_bodies():
            with self.subTest(f"{path.parent.parent.name}/{path.stem}"):
                body(path)

    def test_the_index_names_each_page_and_no_page_is_long(self):
        index = text_of(TOP / "docs/CONTRACTS.md")
        for page in contracts.FOLDER.glob("*.md"):
            with self.subTest(page.name):
                self.assertIn(f"(contracts/{page.name})", index)
                self.assertLessEqual(text_of(page).count("\n"), 400, "lines")
