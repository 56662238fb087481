"""A test with a log."""

import os
import subprocess

from harness import ProgramCase

FIRST = "00000000000000000000.store"


class LogCase(ProgramCase):
    """A test with a log in the folder `events`."""

    def append(self, text: bytes, *words: str) -> bytes:
        """Appends records from the standard input, and returns what is printed."""
        return self.program.gives("log", "append", "events", *words, input=text)

    def append_fails(self, status: int, reason: str, appended: str, *words: str, **how) -> None:
        """An append ends with this status. Its errors are a line that has the reason in it, and one that says what was
        appended."""
        done = self.program.run("log", "append", "events", *words, **how)
        self.assertEqual(done.returncode, status, done.stderr)
        said = done.stderr.decode().splitlines()
        self.assertEqual(said[1:], [f"zevkhadun: events: appended: {appended}"])
        self.assertIn(reason, said[0])

    def records(self, *words: str, name: str = "events") -> bytes:
        """What `log cat` prints."""
        return self.program.gives("log", "cat", name, *words)

    def files(self) -> dict[str, bytes]:
        """The files of the log, but for its lock."""
        folder = self.folder / "events"
        return {name: (folder / name).read_bytes() for name in sorted(os.listdir(folder)) if name != "lock"}

    def change(self, name: str, content: bytes) -> None:
        """Gives a file of the log other bytes."""
        (self.folder / "events" / name).write_bytes(content)

    def begin(self, *words: str) -> subprocess.Popen:
        """Begins an append that waits for its input."""
        pipes = {"stdin": subprocess.PIPE, "stdout": subprocess.PIPE, "stderr": subprocess.PIPE}
        command = [self.program.path, "log", "append", "events", *words]
        writing = subprocess.Popen(command, cwd=self.folder, **pipes)
        self.addCleanup(self.end, writing)
        return writing

    def end(self, writing: subprocess.Popen) -> None:
        """Ends an append, and closes its pipes."""
        writing.kill()
        writing.wait()
        for pipe in (writing.stdin, writing.stdout, writing.stderr):
            pipe.close()

    def say(self, writing: subprocess.Popen, text: bytes) -> bytes:
        """Gives an append some input, and returns the line that it prints then."""
        writing.stdin.write(text)
        writing.stdin.flush()
        return writing.stdout.readline()
