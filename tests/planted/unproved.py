"""A copy of a crate in which most functions have no proof and no body: a check takes them by their contracts."""

from __future__ import annotations

from pathlib import Path

from planted.bodies import FUNCTION, indent

# The one hole, and the proof that takes a function by its contract.
HOLE = "pub anything : {A : Type 2} → A\nanything = ?\n"
PROOF = """\
use Rattle.{crate}.proofs.{path}.Statement.{{statement}}
use Rattle.{crate}.proofs.Unproved.{{anything}}

pub {name}_spec : {{M : Type 1}} → statement M
{name}_spec = anything
"""


def has_own_proof(proofs: Path, path: str) -> bool:
    """Whether a function calls itself: then its proof has another place."""
    folder = proofs / path.replace("::", "/")
    return folder.with_name(f"+{folder.name}").is_dir()


def leave_unproved(proofs: Path, crate: str, paths: list[str]) -> None:
    """Puts a hole in the place of these functions' proofs."""
    proofs.mkdir(exist_ok=True)
    with (proofs / "Lib.antt").open("a", encoding="utf-8") as root:
        root.write("mod Unproved\n")
    (proofs / "Unproved.antt").write_text(HOLE, encoding="utf-8")
    for path in paths:
        folder = proofs / path.replace("::", "/")
        folder.mkdir(parents=True, exist_ok=True)
        for name in ("Invariants.antt", "Answers.antt"):
            (folder / name).unlink(missing_ok=True)
        proof = PROOF.format(crate=crate, path=path.replace("::", "."), name=path.rpartition("::")[2])
        (folder / "Proof.antt").write_text(proof, encoding="utf-8")


def body_after(lines: list[str], at: int) -> tuple[int, int] | None:
    """The lines of the braces of a function's body, as `rt fmt` writes them; none if it stands on one line."""
    depth = indent(lines[at])
    for number in range(at, len(lines)):
        if not lines[number].strip() or indent(lines[number]) > depth:
            continue
        if lines[number].endswith("{"):
            return number, lines.index(" " * depth + "}", number)
        if lines[number].endswith((";", "}")):
            break
    return None


def without_bodies(text: str, kept: set[str]) -> str:
    """A text whose functions loop in place of what they do, but those of these names and constant ones. What a check
    makes of such a function is small, and what it alone calls is not checked."""
    lines, given, at = text.split("\n"), [], 0
    while at < len(lines):
        found = FUNCTION.match(lines[at])
        is_cut = found and found[1] not in kept and "const fn" not in found[0]
        braces = body_after(lines, at) if is_cut else None
        if braces and braces[0] + 1 < braces[1]:
            begin, end = braces
            given += [*lines[at:begin + 1], f"{' ' * indent(lines[at])}    loop {{}}"]
            at = end
        given.append(lines[at])
        at += 1
    return "\n".join(given)
