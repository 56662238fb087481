"""A crate as `rattle check` takes it: its words, and the libraries below it, which `rt ci` left."""

from __future__ import annotations

import functools
import json
import re
import subprocess
import time
from collections.abc import Iterator
from dataclasses import dataclass
from pathlib import Path

from harness import TOP

# What a check reads of a crate.
PARTS = ("src", "specs", "proofs")
LINE = re.compile(r"^(\w+)((?: \w+)*):(.*)$", re.M)
# The seconds after which a library that another process makes is whole.
SETTLED = 10
# The path, below its crate, of a function whose proof a hole can replace.
PLAIN = re.compile(r"\w+(?:::(?!fn::)\w+)*")


@functools.cache
def kit() -> Path:
    """The folder of the kit."""
    page = subprocess.run(["rt", "doc"], capture_output=True, text=True, check=True).stdout.splitlines()[0]
    return Path(page).parent


@dataclass(frozen=True)
class Crate:
    """A crate, with what crates.txt says of it: the word after its name, and the libraries that it names."""

    name: str
    kind: str
    uses: tuple[str, ...]
    folder: Path

    def library(self) -> Path:
        """The library that `rt ci` built of it."""
        return self.folder / "out/rlib" / f"{self.name}.rlib"

    def is_left(self) -> bool:
        """Whether that library is there, and no file that it was built from is newer."""
        if not self.library().is_dir():
            return False
        made = self.library().stat().st_mtime
        read = (path for part in PARTS for path in (self.folder / part).rglob("*"))
        return all(path.stat().st_mtime <= made for path in read)

    def is_settled(self, since: float) -> bool:
        """Whether its library and those below it were made after a time, and none just now: it may not be whole."""
        needed = [*self.below(), *([] if self.kind else [self])]
        if not all(one.library().is_dir() for one in needed):
            return False
        return all(since < one.library().stat().st_mtime < time.time() - SETTLED and one.is_left() for one in needed)

    def functions(self) -> Iterator[str]:
        """The functions of the library that `rt ci` built of it, by their paths below the crate."""
        code = listed()[self.name].library() / "toolchain/mir.json"
        for name, *_ in json.loads(code.read_bytes()) if code.is_file() else ():
            yield name.partition("::")[2]

    @functools.cache
    def below(self) -> list[Crate]:
        """The libraries of the repository below it, lowest first."""
        found: list[Crate] = []
        for name in self.uses:
            if name in listed():
                found += [one for one in [*listed()[name].below(), listed()[name]] if one not in found]
        return found

    def lack(self) -> str:
        """Which libraries below it are missing or old, and what builds them; nothing if all are there."""
        missing = [one.name for one in self.below() if not one.is_left()]
        if not missing:
            return ""
        return f"no library is built of {', '.join(missing)} as it is now; without its out/rlib, 'rt ci' builds it"

    def words(self) -> Iterator[str]:
        """The words after `rattle check`, for a copy of its files in the folder where it runs."""
        yield from ("--crate-name", self.name)
        yield "src/main.rt" if (self.folder / "src/main.rt").is_file() else "src/lib.rt"
        for name in ("std", *self.uses):
            library = listed()[name].library() if name in listed() else kit() / "rlibs" / f"{name}.rlib"
            yield from ("--extern", f"{name}={library}")
        for folder in (kit() / "rlibs", *(one.library().parent for one in self.below())):
            yield from ("-L", f"dependency={folder}")
        yield from ("--links", f"{self.name}=", *(("--crate-type", self.kind) if self.kind else ()))
        yield from ("--antt-project", str(kit() / "rattle/logic/antt-project.json"))
        yield from ("--logic-built", str(kit() / "logic_built"), "--jobs", "1")


@functools.cache
def listed() -> dict[str, Crate]:
    """The crates of crates.txt, by their names."""
    text = (TOP / "crates.txt").read_text(encoding="utf-8")
    found = (line.groups() for line in LINE.finditer(text))
    return {
        name: Crate(name, kind.strip(), tuple(uses.split()), TOP / "crates" / name) for name, kind, uses in found
    }


def planted() -> list[Crate]:
    """The crates that have wrong bodies here."""
    return [crate for crate in listed().values() if any((crate.folder / "planted").glob("*.edit"))]
