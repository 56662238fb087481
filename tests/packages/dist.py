"""The folder that dist.sh makes, and commands that see nothing of the repository and of the kit."""

from __future__ import annotations

import functools
import importlib.util
import os
import subprocess
import sys
from pathlib import Path

from harness import LIBRARY, PROGRAM, TOP, UNSHARED, kept_folder
from library.compiling import output_of
from packages.installed import InstalledCase

# What a build takes from the environment, and a user has not set.
OURS = ("CARGO_TARGET", "LD_LIBRARY", "PIP_", "PKG_CONFIG", "PYTHON", "RUSTFLAGS", "VIRTUAL_ENV", "ZEVKHADUN_")
# Runs a command where these two folders are empty.
HIDE = 'mount -t tmpfs none "$1" && mount -t tmpfs none "$2" && shift 2 && exec "$@"'


def new_dist(folder: Path) -> Path:
    """Runs dist.sh, and returns the folder."""
    command = ["bash", TOP / "dist.sh", "--program", PROGRAM.path(), "--library", LIBRARY.path(), folder]
    output_of(*command, env=os.environ | {"PYTHON": sys.executable})
    return folder


@functools.cache
def dist() -> Path:
    """The folder, which is made once and removed at the end."""
    return new_dist(kept_folder("dist") / "dist")


def path_without_kit() -> str:
    """The folders of PATH in which the kit's command is not."""
    folders = os.environ["PATH"].split(os.pathsep)
    return os.pathsep.join(folder for folder in folders if not (Path(folder) / "rt").exists())


def environment() -> dict[str, str]:
    """The environment of a user without the kit."""
    kept = {name: value for name, value in os.environ.items() if not name.startswith(OURS)}
    return kept | {"PATH": path_without_kit(), "PYTHONDONTWRITEBYTECODE": "1"}


@functools.cache
def hidden() -> tuple[str, ...]:
    """What runs a command where the repository and the kit can't be seen; nothing where the system doesn't let us."""
    page = subprocess.run(["rt", "doc"], capture_output=True, text=True, check=True).stdout.splitlines()[0]
    command = (*UNSHARED, "sh", "-c", HIDE, "", str(TOP), str(Path(page).parent))
    try:
        done = subprocess.run([*command, "true"], capture_output=True)
    except OSError:
        return ()
    return command if done.returncode == 0 else ()


class DistCase(InstalledCase):
    """A test in a folder that has `dist`, and where nothing else is known of the repository and of the kit."""

    def setUp(self) -> None:
        super().setUp()
        if lack := PROGRAM.lack():
            self.skipTest(lack)
        self.require("cargo", "pkg-config")
        (self.folder / "dist").symlink_to(dist())

    def require_pip(self) -> None:
        """Skips the test unless this Python makes environments that have pip."""
        if importlib.util.find_spec("ensurepip") is None:
            self.skipTest("this Python has no ensurepip")

    def alone(self, *command: str | Path, **how) -> str:
        """Runs a command that has to end with 0, and returns what it printed."""
        how = {"cwd": self.folder, "env": environment()} | how
        return self.succeed(*hidden(), *command, **how).decode()
