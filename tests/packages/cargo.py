"""The package for Rust, as cargo builds it."""

from __future__ import annotations

import functools
import json
import os
from pathlib import Path

from harness import TOP, kept_folder
from library.compiling import output_of, prefix

PACKAGE = TOP / "bindings/rust"


@functools.cache
def target() -> Path:
    """The folder in which cargo builds. It is removed at the end."""
    return kept_folder("rust")


def environment() -> dict[str, str]:
    """The environment in which cargo builds the package over the library. Warnings of the documents are errors."""
    return os.environ | {
        "ZEVKHADUN_PREFIX": str(prefix()),
        "CARGO_TARGET_DIR": str(target()),
        "RUSTDOCFLAGS": "-D warnings",
    }


@functools.cache
def run_cargo(*words: str) -> str:
    """Runs cargo without a network, once with the same words, and returns what it printed."""
    cargo, _, own = " ".join(words).partition(" -- ")
    command = ["cargo", *cargo.split(), "--offline", "--locked", *(["--", *own.split()] if own else [])]
    return output_of(*command, cwd=PACKAGE, env=environment())


def example(name: str) -> Path:
    """A built example of the package."""
    run_cargo("build", "--examples")
    return target() / "debug/examples" / name


def built_test(name: str) -> Path:
    """A built test program of the package."""
    lines = run_cargo("test", "--no-run", "--message-format=json", "--test", name).splitlines()
    built = [json.loads(line).get("executable") for line in lines]
    return Path(next(filter(None, built)))
