"""What the documents name and link to exists."""

from __future__ import annotations

import re
from pathlib import Path

from documents.case import CRATES, PATHS, SOURCES, Rules
from documents.pages import at, documents, prose, text_of
from harness import TOP

ENDINGS = "rt|antt|edit|py|sh|c|h|rs|md|json|svg|toml|hex"
# Names of tantivy, of the C library and of the kit, which the documents speak of.
FOREIGN = set("split_from_end deserialize_u64 src/store src/store/reader.rs start_io start_lib HostRuntime".split())
FOREIGN |= {f"MALLOC_{name}_" for name in ("TRIM_THRESHOLD", "MMAP_THRESHOLD", "TOP_PAD")}


def anchors(path: Path) -> set[str]:
    """The anchors of a page's headings, as GitHub names them."""
    heads = (re.fullmatch(r"#+ (.*)", line) for _, line in prose(path))
    texts = (re.sub(r"[^\w\- ]", "", head[1].replace("`", "").lower()) for head in heads if head)
    return {text.replace(" ", "-") for text in texts}


def link_fault(page: Path, target: str) -> str:
    """What is wrong with a relative link; nothing if it leads to a file, and to a heading of it."""
    name, _, anchor = target.partition("#")
    path = (page.parent / name).resolve() if name else page
    if not path.exists():
        return f"no file {target}"
    return f"no heading {target}" if anchor and anchor not in anchors(path) else ""


def known_words() -> tuple[set[str], set[str]]:
    """Each word of the sources, proofs aside, and each part of a path; and those that are declared."""
    words = set(re.findall(r"\w+", text_of(TOP / "crates.txt")))
    declared = CRATES | FOREIGN | {"std", "io"}
    for path, name in zip(SOURCES, PATHS):
        declared.update(re.split(r"[/.]", name))
        if path.suffix in {".rt", ".rs"}:
            declared.update(re.findall(r"\b(?:fn|struct|enum|trait|mod|type|const|ghost) (\w+)", text_of(path)))
            declared.update(re.findall(r"^ +([A-Z]\w*)(?:,| = |\(| \{)", text_of(path), re.M))
        if path.suffix not in {".md", ".edit", ".svg", ".hex"} and "proofs" not in path.parts:
            words.update(re.findall(r"\w+", text_of(path)))
    return words | declared, declared


def is_path(name: str) -> bool:
    """Whether a name between backticks is a path of the repository: by its folder or by its ending."""
    if not re.fullmatch(r"[\w.*-]+(?:/[\w.*-]+)*/?", name) or {"NAME", "out"} & set(re.split(r"[/.]", name)):
        return False
    own = re.match(r"(?:crates|tests|tools|docs|bindings|examples|bench|specs|src|\.ci)/", name)
    return bool(own or re.search(rf"\w\.(?:{ENDINGS})$", name))


def path_exists(page: Path, name: str) -> bool:
    """Whether a path of a page exists: from the top, from the page, or as a part of some path; stars are names."""
    if "*" in name:
        return any(TOP.glob(name)) or any(page.parent.glob(name))
    if (TOP / name).exists() or (page.parent / name).exists():
        return True
    return any(f"/{name}" in f"/{path}/" for path in PATHS)


def is_known(word: str, words: set[str]) -> bool:
    """Whether something has this name, or begins with it if it ends in an underscore."""
    return word in words or (word.endswith("_") and any(one.startswith(word) for one in words))


def name_fault(page: Path, name: str, words: set[str], declared: set[str]) -> str:
    """What is wrong with a name between backticks; nothing if it exists, or is no name of ours."""
    if name in FOREIGN:
        return ""
    if is_path(name):
        return "" if path_exists(page, name) else f"no file {name}"
    if not re.fullmatch(r"\w+(?:::\w+)*(?:\(\))?", name):
        return ""
    parts = re.findall(r"[A-Za-z_]\w*", name)
    is_call = "::" in name or name.endswith("()")
    known = declared if is_call else words
    missing = [part for part in parts if (is_call or "_" in part) and not is_known(part, known)]
    return f"nothing is named {missing[0]}" if missing else ""


def names_of(line: str) -> list[str]:
    """What a line names between backticks, or by a long name."""
    found = re.findall(r"`([^`]+)`", line)
    without = re.sub(r"`[^`]*`", "", line)
    return found + re.findall(r"(?<![\w`/.])[a-z0-9]+(?:_[a-z0-9]+){2,}(?![\w`/.])", without)


class Names(Rules):
    def test_each_relative_link_leads_to_a_file_and_a_heading(self):
        found = [
            (page, number, target)
            for page in documents()
            for number, line in prose(page)
            for target in re.findall(r"\]\((?!\w+:)([^)\s]+)\)", line)
        ]
        faults = ((page, number, link_fault(page, target)) for page, number, target in found)
        self.assert_no_faults(at(page, number, fault) for page, number, fault in faults if fault)
        self.assert_looked_at(len(found), 20, "links")

    def test_each_file_crate_call_test_and_edit_that_is_named_exists(self):
        """The changelog names what was there before, too."""
        known = known_words()
        found = [
            (page, number, name)
            for page in documents() if page.name != "CHANGELOG.md"
            for number, line in prose(page)
            for name in names_of(line)
        ]
        faults = ((page, number, name_fault(page, name, *known)) for page, number, name in found)
        self.assert_no_faults(at(page, number, fault) for page, number, fault in faults if fault)
        self.assert_looked_at(len(found), 1000, "names")
