"""The package for Python, built by pip and installed into a virtual environment, both without a network."""

from __future__ import annotations

import functools
import importlib.util
import os
import subprocess
import sys
import sysconfig
from collections.abc import Iterator
from pathlib import Path

from harness import TOP, kept_folder
from library.compiling import LibraryCase, default_compiler, output_of, prefix

PACKAGE = TOP / "bindings/python"
OLDEST = (3, 11)
# What an interpreter prints about itself: what it is, its version, and its path.
TELL = "import sys; print(sys.implementation.name, '%d.%d' % sys.version_info[:2], sys.executable, sep='\\n')"
# pip and Python take these from the environment.
OURS = ("PIP_", "PYTHON", "VIRTUAL_ENV", "ZEVKHADUN_")


def environment(**further: str) -> dict[str, str]:
    """The environment without what changes pip, Python and the package."""
    kept = {name: value for name, value in os.environ.items() if not name.startswith(OURS)}
    return kept | {"PYTHONDONTWRITEBYTECODE": "1"} | further


def run(*command: str | Path, **how) -> str:
    """Runs a command in this environment, where none is given. It has to end with 0; returns what it printed."""
    return output_of(*command, **{"env": environment()} | how)


def pip(*words: str | Path, **further: str) -> str:
    """Runs pip, without a network and without the settings of the user."""
    return run(sys.executable, "-m", "pip", "--isolated", *words, env=environment(**further))


@functools.cache
def folder() -> Path:
    """The folder of the wheel and of the environment. It is removed at the end."""
    return kept_folder("python")


def new_wheel(source: Path, target: Path, **further: str) -> Path:
    """Builds a wheel of a folder or a source archive into a folder."""
    pip("wheel", "--quiet", "--no-deps", "--no-index", "--wheel-dir", target, source, **further)
    (built,) = target.glob("*.whl")
    return built


def new_environment(place: Path, built: Path, interpreter: str = sys.executable) -> Path:
    """Installs a wheel into a new virtual environment of an interpreter, and returns the interpreter of that."""
    run(interpreter, "-m", "venv", "--without-pip", place)
    python = place / "bin/python"
    pip("--python", python, "install", "--quiet", "--no-deps", "--no-index", "--no-compile", built)
    return python


def candidates() -> Iterator[Path]:
    """What may be a CPython from 3.11 on: in the folders of PATH, in /usr/bin, and of pyenv."""
    folders = [*map(Path, os.environ["PATH"].split(os.pathsep)), Path("/usr/bin")]
    folders += sorted(Path.home().glob(".pyenv/versions/3.*/bin"))
    for minor in range(OLDEST[1], 100):
        yield from (path for folder in folders if (path := folder / f"python3.{minor}").is_file())


@functools.cache
def interpreters() -> dict[str, str]:
    """The CPythons that the machine has, one of each version from 3.11 on, by their versions: 3.12 and so on."""
    found: dict[str, str] = {}
    for path in candidates():
        done = subprocess.run([path, "-c", TELL], env=environment(), capture_output=True, text=True)
        # A command of pyenv without its version fails.
        name, version, executable = done.stdout.split("\n")[:3] if done.returncode == 0 else ("", "", "")
        if name == "cpython":
            found.setdefault(version, executable)
    return found


@functools.cache
def wheel() -> Path:
    """The wheel of the package with the built library inside. It is built once."""
    return new_wheel(PACKAGE, folder() / "wheels", ZEVKHADUN_PREFIX=str(prefix()))


@functools.cache
def python() -> Path:
    """The interpreter of a virtual environment that has the wheel and nothing else. It is made once."""
    return new_environment(folder() / "environment", wheel())


class InstalledCase(LibraryCase):
    """A test of the installed package."""

    def setUp(self) -> None:
        super().setUp()
        self.require_python()

    def require_python(self) -> None:
        """Skips the test unless this Python can build and install the package."""
        self.require(default_compiler())
        if sys.implementation.name != "cpython" or sys.version_info < OLDEST:
            self.skipTest(f"this is {sys.implementation.name} {sys.version.split()[0]}, not CPython 3.11 or later")
        for module in ("pip", "venv"):
            if importlib.util.find_spec(module) is None:
                self.skipTest(f"this Python has no {module}")
        if not (Path(sysconfig.get_path("include")) / "Python.h").is_file():
            self.skipTest("this Python has no Python.h")
