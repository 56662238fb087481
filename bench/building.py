"""Builds the programs of all sides: what is proved, the libraries, and what stands over them."""

import os
import shutil
import subprocess
import sys
from pathlib import Path
from typing import Callable, Dict, List, Optional, Set

from instructions import VALGRIND
from plan import C_SIDES, PYTHON_SIDES, RATTLE_SIDES, RUST_SIDES, Row

HERE = Path(__file__).resolve().parent
TOP = HERE.parent
OUT = HERE / "out"
PREFIX = OUT / "prefix"
PEERS = OUT / "peers"
BENCH_STORE = TOP / "crates/bench_store/out/bench_store"
PROGRAM = TOP / "crates/zevkhadun/out/zevkhadun"
ENVIRONMENT = OUT / "python"
PYTHON = ENVIRONMENT / "bin/python"
RUST = OUT / "rust/release/rust_side"

#: in this order Pythons are looked at for one that has py-lmdb
PYTHONS = ["/usr/bin/python3", sys.executable]


class Failed(Exception):
    """A command that builds something failed."""


def _run(words: List[object], folder: Path = TOP, **environment: object) -> None:
    """Runs a command, whose output is shown only if it fails."""
    given = {**os.environ, **{name: str(value) for name, value in environment.items()}}
    done = subprocess.run([str(word) for word in words], cwd=folder, env=given, capture_output=True, text=True)
    if done.returncode != 0:
        raise Failed(f"{' '.join(map(str, words))}\n{done.stdout}{done.stderr}")


def _run_if_it_can(build: Callable[[], None]) -> None:
    """Builds a side that may be left out, and says why it can't be built."""
    try:
        build()
    except Failed as why:
        print(f"run.py: {why}", file=sys.stderr)


def has_lmdb(python: str) -> bool:
    done = subprocess.run([python, "-c", "import lmdb"], capture_output=True)
    return done.returncode == 0


def base_python() -> str:
    """The Python for which the package is built: one that has py-lmdb, if any has."""
    there = [python for python in PYTHONS if Path(python).exists()]
    return next((python for python in there if has_lmdb(python)), sys.executable)


def build_python() -> None:
    """An environment with the package, and with what its Python has already."""
    python, wheels = base_python(), OUT / "wheels"
    shutil.rmtree(wheels, ignore_errors=True)
    _run([python, "-m", "venv", "--clear", "--system-site-packages", ENVIRONMENT])
    _run([PYTHON, "-m", "pip", "wheel", "--no-deps", "--no-index", "--wheel-dir", wheels, TOP / "bindings/python"],
         ZEVKHADUN_PREFIX=PREFIX)
    _run([PYTHON, "-m", "pip", "install", "--no-deps", "--no-index", "--force-reinstall", *wheels.glob("*.whl")])


def build_rust() -> None:
    """The program over the package for Rust, where there is cargo."""
    if shutil.which("cargo"):
        _run(["cargo", "build", "--release", "--quiet", "--target-dir", OUT / "rust"], HERE / "rust",
             ZEVKHADUN_PREFIX=PREFIX)


def build(sides: Set[str]) -> None:
    """What these sides need and isn't built yet."""
    OUT.mkdir(exist_ok=True)
    if sides & set(RATTLE_SIDES) and not BENCH_STORE.exists():
        _run(["rt", "run", "--jobs", "2"], TOP / "crates/bench_store")
    if "program" in sides and not PROGRAM.exists():
        _run(["rt", "run", "--jobs", "2", "--", "verify", "data/three.store"], TOP / "crates/zevkhadun")
    if sides & {*C_SIDES, *PYTHON_SIDES, *RUST_SIDES} and not (PREFIX / "lib/libzevkhadun.so").exists():
        _run(["bash", TOP / "bindings/c/build.sh", PREFIX])
    if sides & {*C_SIDES, *PYTHON_SIDES, *RUST_SIDES}:
        _run(["make", "--silent", "-j2", "-C", HERE / "peers"])
    if sides & set(PYTHON_SIDES) and not python_sides():
        _run_if_it_can(build_python)
    if sides & set(RUST_SIDES):
        _run_if_it_can(build_rust)


def python_sides() -> Set[str]:
    """The sides that the environment's Python has."""
    if not PYTHON.exists():
        return set()
    command = [str(PYTHON), str(HERE / "from_python.py"), "sides"]
    sides = set(subprocess.run(command, capture_output=True, text=True, check=True).stdout.split())
    return sides if "python" in sides else set()


def missing(sides: Set[str]) -> Dict[str, str]:
    """The sides whose program is not there, each with what it lacks."""
    lacks: Dict[str, Optional[str]] = {side: "the package, or its library" for side in sides & set(PYTHON_SIDES)}
    for side in python_sides():
        lacks.pop(side, None)
    if RUST_SIDES[0] in sides and not RUST.exists():
        lacks[RUST_SIDES[0]] = "cargo"
    if "shell_sqlite" in sides and not shutil.which("sqlite3"):
        lacks["shell_sqlite"] = "the program sqlite3"
    return lacks


def with_programs(rows: List[Row]) -> List[Row]:
    """The rows whose side has a program; it says which have none."""
    lacks = missing({row.side for row in rows})
    for side, what in sorted(lacks.items()):
        print(f"left out: {side}, which lacks {what}", file=sys.stderr)
    if any(row.group == "instructions" for row in rows) and not shutil.which(VALGRIND):
        print(f"left out: instructions, which need {VALGRIND}", file=sys.stderr)
        rows = [row for row in rows if row.group != "instructions"]
    return [row for row in rows if row.side not in lacks]
