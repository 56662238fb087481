#!/usr/bin/env python3
"""Prints what each public theorem rests on besides its proof.

usage: trusted_base.py [--sources] [--log CRATE=FILE].. [CRATE..]

For each crate of the theorems, or for those that are named, `rt check` proves the crate and reports the axioms that it
reached: contracts of C functions, which are assumed. --log reads the output of such a check that was kept instead. Then
follow the premises of the theorems, and the bodies of which no clause says what the system does. --sources prints these
alone.
"""

from __future__ import annotations

import argparse
import re
import subprocess
import sys
from dataclasses import dataclass
from pathlib import Path

TOP = Path(__file__).resolve().parent.parent
REACHED = re.compile(r"^ +(\S+) +reached$", re.M)
VERDICT = re.compile(r"^logic=proved( .*)$", re.M)
# A type of which the clauses about contents say nothing: no clause of the system's calls says what they do.
NOT_HONEST = re.compile(r"ghost (?:honest = \{ (?:λ _\. )?false|holds = \{ λ _\. None) \}")
IMPL = re.compile(r"^impl(?:<[^\n]*>)? (\w+) for (\w+).*?^\}", re.M | re.S)
# The traits of which each method names the call of the system that it makes.
OF_SYSTEM = {
    "SystemFiles": "crates/store_files/src/system_files.rt",
    "InputFiles": "crates/document_framing/src/input_files.rt",
}
# Traits whose clauses have the premise that another trait of the type states.
RESTS_ON_OTHERS = ("ReadableFolder",)


@dataclass(frozen=True)
class Theorem:
    """A public theorem: the crate that states it, the functions whose contracts it is, and its premises."""

    name: str
    crate: str
    functions: tuple[str, ...]
    premises: tuple[str, ...]


THEOREMS = (
    Theorem("the main theorem", "main_theorem",
            ("written_and_asked", "index_read_and_written", "stacked_in_two_orders"),
            ("memory aside", "usize", "whole live sets")),
    Theorem("a merge has the documents that are alive", "store_merge",
            ("merge", "merge_in_parts"), ("memory aside", "usize", "honest file")),
    Theorem("the program's answers are those of the stores", "store_commands",
            ("give_documents", "check_blocks", "merge_store"), ("memory aside", "usize", "honest file")),
    Theorem("a crash leaves the old store or the new one", "store_published",
            ("publish_store", "publish_export"), ("memory aside", "usize", "honest folder")),
    Theorem("a record that a sync acknowledged is never lost", "segmented_log",
            ("open", "sync", "seal", "compact", "repair", "call_all", "open_and_call", "ends_lose_nothing"),
            ("memory aside", "usize", "honest folder")),
    Theorem("a number is printed once its record is on the disk", "framed_logs",
            ("append_inputs", "print_records"), ("memory aside", "usize", "honest folder", "known inputs")),
    Theorem("what cat prints of what pack packed is what was put in", "program_stores",
            ("pack_and_cat", "pack", "append", "merge", "print"),
            ("memory aside", "usize", "honest system", "known inputs")),
    Theorem("a call from C gives the document of the bytes", "store_c",
            ("zevk_get", "zevk_locate", "zevk_writer_close"), ("memory aside", "usize", "rules of zevkhadun.h")),
)
# What is written by hand in C, below or above proved code.
BY_HAND = ("bindings/c/src", "bindings/python/src/core")


@dataclass(frozen=True)
class Body:
    """A function that makes a call of the system, or of a device, and whose contract says nothing of the contents. The
    call is the one that the comment of its trait names."""

    place: str
    name: str
    call: str


def calls() -> dict[tuple[str, str], str]:
    """The call of the system that the comment of each method of these traits names, by the trait and the method."""
    found = {}
    for trait, path in OF_SYSTEM.items():
        for comment, name in re.findall(r"((?:^    ///[^\n]*\n)+)    fn (\w+)", (TOP / path).read_text(), re.M):
            named = re.sub(r"\n? *///", "", comment).partition(": ")[2]
            found[trait, name] = ", ".join(dict.fromkeys(re.findall(r"`([a-z]+)`", named)))
    return found


def bodies() -> list[Body]:
    """The methods of the library's types that are not honest by definition, of which the premises have to hold."""
    found = []
    paths = [path for crate in ("store_*", "document_framing") for path in TOP.glob(f"crates/{crate}/src/**/*.rt")]
    texts = {path: path.read_text() for path in sorted(paths)}
    impls = [(path, impl) for path, text in texts.items() for impl in IMPL.finditer(text)]
    types = {impl[2] for _, impl in impls if NOT_HONEST.search(impl[0])}
    of_system = calls()
    for path, impl in impls:
        text = texts[path]
        if NOT_HONEST.search(impl[0]) or (impl[1] in RESTS_ON_OTHERS and impl[2] in types):
            for method in re.finditer(r"^    fn (\w+)", impl[0], re.M):
                line = text[:impl.start() + method.start()].count("\n") + 1
                place = f"{path.relative_to(TOP)}:{line}"
                call = of_system[impl[1], method[1]] if impl[1] in OF_SYSTEM else ""
                found.append(Body(place, f"{impl[2]}::{method[1]}, of {impl[1]}", call))
    return found


def checked(crate: str) -> str:
    """What a check of a crate prints: of a library with its tests, since only a program has a report."""
    line = next(line for line in (TOP / "crates.txt").read_text().splitlines() if re.match(rf"{crate}\b", line))
    is_whole = "staticlib" in line or (TOP / "crates" / crate / "src/main.rt").exists()
    command = ["rt", "check", "--list-axioms", *([] if is_whole else ["--test"])]
    done = subprocess.run(command, cwd=TOP / "crates" / crate, stdout=subprocess.PIPE, text=True)
    if done.returncode:
        sys.exit(f"{crate}: `{' '.join(command)}` ends with status {done.returncode}")
    return done.stdout


def report(crate: str, output: str) -> list[str]:
    """The lines about a crate, by the output of its check."""
    verdict = VERDICT.search(output)
    if not verdict:
        sys.exit(f"{crate}: the output of its check has no line `logic=proved`")
    axioms = REACHED.findall(output)
    counted = re.search(r" axioms=(\d+)", verdict[1])
    if len(axioms) != int(counted[1] if counted else 0):
        sys.exit(f"{crate}: {len(axioms)} axioms are listed, and not those of the line `logic=proved`")
    head = f"{crate}: proved; contracts of C functions that are assumed: {len(axioms) or 'none'}"
    return [head, *(f"    {axiom}" for axiom in axioms)]


def sources() -> list[str]:
    """The lines about premises and bodies, by the sources."""
    lines = ["premises of the theorems:"]
    for theorem in THEOREMS:
        names = ", ".join(theorem.functions)
        lines.append(f"    {theorem.name} ({theorem.crate}: {names})")
        lines.append(f"        {', '.join(theorem.premises)}")
    lines.append("bodies on which 'honest file' and 'honest folder' rest for files of the system:")
    lines += [f"    {body.name} ({body.place}){body.call and ': '}{body.call}" for body in bodies()]
    lines.append("C that is written by hand, beside the proved calls:")
    for folder in BY_HAND:
        lines += [f"    {path.relative_to(TOP)}" for path in sorted((TOP / folder).glob("*.c"))]
    return lines


def words() -> argparse.Namespace:
    """The words of the command line."""
    parser = argparse.ArgumentParser(description=__doc__, formatter_class=argparse.RawDescriptionHelpFormatter)
    parser.add_argument("--sources", action="store_true", help="print premises and bodies alone, and run no check")
    parser.add_argument("--log", action="append", default=[], metavar="CRATE=FILE", help="what a check printed")
    parser.add_argument("crates", nargs="*", metavar="CRATE")
    return parser.parse_args()


def main() -> int:
    options = words()
    logs = dict(log.split("=", 1) for log in options.log)
    if not options.sources:
        for crate in options.crates or logs or [theorem.crate for theorem in THEOREMS]:
            print(*report(crate, Path(logs[crate]).read_text() if crate in logs else checked(crate)), sep="\n")
    print(*sources(), sep="\n")
    return 0


if __name__ == "__main__":
    sys.exit(main())
