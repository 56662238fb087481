#!/usr/bin/env python3
"""Builds the program that times tantivy's document store.

usage: build.py SOURCE [PROGRAM]

SOURCE is the folder of tantivy 0.26.2, with its `src/store` and its crate `common`: a clone of its repository at that
version, or a package that has its `src/store` between other code of the same names. Nothing of it is kept here. It is
copied below bench/out, where `iter_raw` is made public, and PROGRAM (bench/out/tantivy) is built over the copy by
cargo, with its plain release profile.
"""

import re
import shutil
import subprocess
import sys
from pathlib import Path

HERE = Path(__file__).resolve().parent
OUT = HERE.parent / "out"

MANIFEST = """[package]
name = "tantivy_side"
version = "0.0.0"
edition = "2021"
publish = false

[[bin]]
name = "tantivy_side"
path = "{main}"

[dependencies]
tantivy = {{ package = "{tantivy}", path = "{source}" }}
common = {{ package = "{common}", path = "{source}/common" }}

[workspace]
"""


def name_of(folder: Path) -> str:
    """The name of the package in a folder."""
    found = re.search(r'^name = "([^"]*)"', (folder / "Cargo.toml").read_text(), re.M)
    if not found:
        sys.exit(f"build.py: {folder} has no package")
    return found[1]


def copied(source: Path) -> Path:
    """A copy of the source, in which the iteration over the bytes of documents is public."""
    copy = OUT / "tantivy-source"
    shutil.rmtree(copy, ignore_errors=True)
    shutil.copytree(source, copy, symlinks=True, ignore=shutil.ignore_patterns("target", ".git"))
    reader = copy / "src/store/reader.rs"
    text, count = re.subn(r"pub\(crate\)(?=\s+fn\s+iter_raw\b)", "pub", reader.read_text())
    if count != 1:
        sys.exit(f"build.py: {source} is not tantivy 0.26.2")
    reader.write_text(text)
    return copy


def built(copy: Path) -> Path:
    """The program over a copy of the source."""
    crate = OUT / "tantivy-side"
    crate.mkdir(parents=True, exist_ok=True)
    manifest = MANIFEST.format(
        main=HERE / "src/main.rs", tantivy=name_of(copy), common=name_of(copy / "common"), source=copy)
    (crate / "Cargo.toml").write_text(manifest)
    settings = copy / ".cargo"
    if settings.is_dir():
        shutil.copytree(settings, crate / ".cargo", dirs_exist_ok=True)
    subprocess.run(["cargo", "build", "--release", "--quiet"], cwd=crate, check=True)
    return crate / "target/release/tantivy_side"


def main() -> int:
    if len(sys.argv) not in (2, 3):
        print(__doc__, file=sys.stderr)
        return 2
    program = Path(sys.argv[2]) if len(sys.argv) == 3 else OUT / "tantivy"
    OUT.mkdir(exist_ok=True)
    shutil.copy2(built(copied(Path(sys.argv[1]).resolve())), program)
    print(program)
    return 0


if __name__ == "__main__":
    sys.exit(main())
