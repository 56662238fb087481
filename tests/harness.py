"""What the tests of built things share: where these things are, a program that runs, and a folder for each test."""

from __future__ import annotations

import atexit
import os
import re
import resource
import shutil
import signal
import subprocess
import sys
import tempfile
import time
import unittest
from dataclasses import dataclass
from pathlib import Path
from typing import Callable

TOP = Path(__file__).resolve().parent.parent
SECONDS = 120

# Runs a command, and prints how many KiB of memory it had at most. The system counts the memory of the process that
# starts a command, too; so it is this small one, and not that of the tests.
MEASURED = """
import resource, subprocess, sys
status = subprocess.call(sys.argv[1:])
print(resource.getrusage(resource.RUSAGE_CHILDREN).ru_maxrss, file=sys.stderr)
sys.exit(status)
"""


@dataclass(frozen=True)
class Built:
    """A thing that the gate builds."""

    name: str
    variable: str
    default: str
    command: str

    def path(self) -> Path:
        """Where it is: by its variable of the environment, or in the folder of its crate."""
        return Path(os.environ.get(self.variable) or TOP / self.default).absolute()

    def lack(self) -> str:
        """What is wrong if it isn't there, and what builds it; nothing if it is there."""
        return "" if self.path().is_file() else f"{self.path()} is not built; {self.command} builds it"


PROGRAM = Built("program", "ZEVKHADUN_TEST_PROGRAM", "crates/zevkhadun/out/zevkhadun", "'rt ci'")
STORETOOL = Built("storetool", "ZEVKHADUN_TEST_STORETOOL", "crates/storetool/out/storetool", "'rt ci'")
LIBRARY = Built(
    "library", "ZEVKHADUN_TEST_LIBRARY", "crates/store_c/out/libstore_c.a", "'rt lib' in crates/store_c"
)
BUILT = (PROGRAM, STORETOOL, LIBRARY)


class Libraries:
    """The libraries that `rt ci` proves, each in `out/rlib` of its crate."""

    name = "libraries"

    def lack(self) -> str:
        """What is wrong if there are none of those that some crate with wrong bodies needs; nothing if there are."""
        from planted.crates import planted

        lacks = [crate.lack() for crate in planted()]
        return "" if any(not lack for lack in lacks) else lacks[0]


NEEDED = (*BUILT, Libraries())


def numbers(last: int, first: int = 1) -> bytes:
    """The numbers from the first to the last, a line for each."""
    return b"".join(b"%d\n" % number for number in range(first, last + 1))


def changed(content: bytes, place: int, new: bytes) -> bytes:
    """The content with other bytes at a place, which is counted from the end if it is negative."""
    place %= len(content)
    return content[:place] + new + content[place + len(new):]


def kept_folder(name: str) -> Path:
    """Makes a folder that several tests use. It is removed when all tests are done."""
    folder = Path(tempfile.mkdtemp(prefix=f"zevkhadun-{name}-"))
    atexit.register(shutil.rmtree, folder, ignore_errors=True)
    return folder


def limited(kind: int, most: int, on_large_file: signal.Handlers = signal.SIG_IGN) -> Callable[[], None]:
    """What a child does before its program starts, so that it has at most this much of a resource."""

    def limit() -> None:
        resource.setrlimit(kind, (most, most))
        signal.signal(signal.SIGXFSZ, on_large_file)

    return limit


def read_to_end(terminal: int) -> bytes:
    """What comes to a terminal until its other end is closed."""
    shown = b""
    while True:
        try:
            more = os.read(terminal, 1 << 16)
        except OSError:
            return shown
        if not more:
            return shown
        shown += more


class Case(unittest.TestCase):
    """A test that may need what the machine lacks."""

    maxDiff = 2000

    def require(self, *programs: str) -> None:
        """Skips the test unless the machine has these programs."""
        for program in programs:
            if not shutil.which(program):
                self.skipTest(f"there is no {program}")

    def assert_same(self, given: bytes, wanted: bytes, what: str) -> None:
        """The bytes are equal; of long ones only the first difference is shown."""
        if given == wanted:
            return
        place = next((i for i, (one, other) in enumerate(zip(given, wanted)) if one != other), None)
        place = min(len(given), len(wanted)) if place is None else place
        found, there = given[place:place + 40], wanted[place:place + 40]
        self.fail(f"{what}: {len(given)} bytes, not {len(wanted)}; at {place}: {found!r}, not {there!r}")


# Before a command: what that mounts, it alone sees.
UNSHARED = ("unshare", "-m" if os.geteuid() == 0 else "-rm")
# Makes a device of 1 MiB in the folder `$1`.
MOUNT = 'mount -t tmpfs -o size=1m none "$1" || exit 77\n'


class FolderCase(Case):
    """A test in a folder of its own."""

    def setUp(self) -> None:
        super().setUp()
        self.folder = self.new_folder()

    def new_folder(self) -> Path:
        """Makes a folder that is removed after the test."""
        folder = Path(tempfile.mkdtemp(prefix="zevkhadun-"))
        self.addCleanup(shutil.rmtree, folder, ignore_errors=True)
        return folder

    def on_device(self, script: str, *words: str | Path, **how) -> subprocess.CompletedProcess:
        """Runs a script of the shell that has a device of 1 MiB in `$1`, and then these words. Skips the test where
        none can be mounted."""
        self.require("unshare")
        command = [*UNSHARED, "sh", "-c", MOUNT + script, "", self.new_folder(), *words]
        done = subprocess.run(command, capture_output=True, timeout=SECONDS, **how)
        if done.returncode == 77 or b"unshare:" in done.stderr:
            self.skipTest("no device can be mounted here")
        return done

    def write(self, name: str, content: bytes) -> Path:
        """Writes a file into the folder."""
        path = self.folder / name
        path.write_bytes(content)
        return path

    def read(self, name: str) -> bytes:
        """The bytes of a file of the folder."""
        return (self.folder / name).read_bytes()

    def names(self) -> list[str]:
        """The files of the folder."""
        return sorted(os.listdir(self.folder))

    def wait_for(self, name: str) -> None:
        """Waits until a file of the folder has this name."""
        for _ in range(1000):
            if name in self.names():
                return
            time.sleep(0.01)
        self.fail(f"there is no {name}: the writer has not begun")

    def assert_missing(self, name: str) -> None:
        """No file of the folder has this name."""
        self.assertNotIn(name, self.names(), f"{name} is left in the folder")


@dataclass(frozen=True)
class Program:
    """A built program that runs in the folder of a test."""

    path: Path
    case: FolderCase

    def run(self, *words: str | bytes | Path, **how) -> subprocess.CompletedProcess:
        """Runs it to its end. Without further parameters its input is empty, and its outputs are kept."""
        how = {"cwd": self.case.folder, "timeout": SECONDS} | how
        how |= {} if "stdin" in how or "input" in how else {"input": b""}
        how |= {name: subprocess.PIPE for name in ("stdout", "stderr") if name not in how}
        return subprocess.run([self.path, *words], **how)

    def gives(self, *words: str | Path, **how) -> bytes:
        """Runs it, and returns its output. It has to end with status 0 and to print no errors."""
        done = self.run(*words, **how)
        self.case.assertEqual((done.returncode, done.stderr or b""), (0, b""), f"status and errors of {words}")
        return done.stdout or b""

    def prints(self, pattern: str, *words: str | Path, **how) -> None:
        """It ends with status 0, and a line of its output has this pattern."""
        text = self.gives(*words, **how).decode()
        self.case.assertRegex(text, re.compile(pattern, re.M), f"output of {words}")

    def fails(self, status: int, reason: str, *words: str | bytes | Path, **how) -> subprocess.CompletedProcess:
        """It ends with this status, and its errors are one line that has the reason in it."""
        done = self.run(*words, **how)
        said = done.stderr.decode(errors="replace")
        self.case.assertEqual(done.returncode, status, f"status of {words}, which said {said!r}")
        self.case.assertEqual(said.count("\n"), 1, f"lines of errors of {words}: {said!r}")
        self.case.assertIn(reason, said, f"errors of {words}")
        return done

    def shows(self, *words: str | Path) -> str:
        """Runs it on a terminal, and returns what it shows there. It has to end with status 0."""
        terminal, shown = os.openpty()
        with open(terminal, "rb", buffering=0):
            with subprocess.Popen(
                [self.path, *words], cwd=self.case.folder, stdin=shown, stdout=shown, stderr=shown
            ) as running:
                os.close(shown)
                text = read_to_end(terminal).decode()
        self.case.assertEqual(running.returncode, 0, f"status of {words}, which showed {text!r}")
        return text


class ProgramCase(FolderCase):
    """A test of the program `zevkhadun`, in a folder of its own."""

    def setUp(self) -> None:
        super().setUp()
        self.program = Program(PROGRAM.path(), self)

    def pack(self, name: str, documents: bytes, *words: str) -> bytes:
        """Writes a store from the standard input, also over another one, and returns its bytes."""
        self.program.gives("pack", "--replace", name, *words, input=documents)
        return self.read(name)

    def cat(self, name: str, *words: str) -> bytes:
        """The documents of a store."""
        return self.program.gives("cat", name, *words)

    def measured(self, *words: str, **how) -> subprocess.Popen:
        """Starts the program, whose memory is measured."""
        command = [sys.executable, "-c", MEASURED, self.program.path, *words]
        return subprocess.Popen(command, cwd=self.folder, stderr=subprocess.PIPE, **how)

    def assert_ends_within(self, most: int, process: subprocess.Popen) -> None:
        """A process that is measured ends with 0, without errors, and has fewer bytes of memory than `most`."""
        said = process.stderr.read().decode()
        process.stderr.close()
        self.assertEqual(process.wait(), 0, said)
        # `verify` says there, too, what it does not find.
        self.assertRegex(said, r"^(note: .*\n)?\d+\n$")
        self.assertLess(int(said.split()[-1]) * 1024, most, "bytes of memory")

    def assert_documents(self, name: str, wanted: bytes, *words: str) -> None:
        """What `cat` prints of a store."""
        self.assert_same(self.cat(name, *words), wanted, f"documents of {name}")

    def assert_kept(self, name: str, before: bytes) -> None:
        """A file has the bytes that it had, and there is no unfinished file beside it."""
        self.assert_same(self.read(name), before, f"{name} is another file")
        self.assert_missing(f"{name}.part")
