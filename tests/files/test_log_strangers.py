"""What is no plain file, in the place of a file of a log."""

import os
import shutil
from pathlib import Path

from program.log_case import FIRST, LogCase

TEXT = b"one\ntwo\nthree\n"
# What a file's place may have, and how it is made there.
STRANGERS = {
    "a pipe": os.mkfifo,
    "a folder": os.mkdir,
    "a link to nothing": lambda path: os.symlink("nowhere", path),
    "a link to a device": lambda path: os.symlink("/dev/zero", path),
    "a link to the file that was there": lambda path: os.symlink(path.parent.parent / "sound" / path.name, path),
}
PLACES = ("tail.log", FIRST, "lock", "tail.log.part", "%020d.store.part" % 2)
COMMANDS = (
    ("append", "events"), ("seal", "events"), ("compact", "events"), ("drop", "events", "--before", "1"),
    ("repair", "events"), ("cat", "events"), ("get", "events", "0"), ("stat", "events"), ("verify", "events"),
)


class Strangers(LogCase):
    """A log of a segment with two records and a tail with one."""

    def setUp(self):
        super().setUp()
        self.append(b"one\ntwo\n")
        self.program.gives("log", "seal", "events")
        self.append(b"three\n")
        self.sound = self.folder / "sound"
        shutil.copytree(self.folder / "events", self.sound)

    def begin_again(self) -> None:
        """Gives the log the files that it had at first."""
        shutil.rmtree(self.folder / "events")
        shutil.copytree(self.sound, self.folder / "events")

    def put_back(self, place: Path) -> None:
        """Removes what is in a file's place, and puts the file there that was, if there was one."""
        if place.is_symlink() or not place.is_dir():
            place.unlink(missing_ok=True)
        else:
            shutil.rmtree(place)
        if (self.sound / place.name).exists():
            shutil.copy(self.sound / place.name, place)

    def check(self, place: Path, words: tuple[str, ...]) -> None:
        """A command ends. Where it fails it names the log; and once the file is back, all records are there."""
        done = self.program.run("log", *words, input=b"four\n", timeout=20)
        self.assertIn(done.returncode, (1, 3) if place.name == "tail.log" else (0, 1, 3), done.stderr)
        if done.returncode != 0:
            self.assertIn(b"events", done.stderr + done.stdout)
        self.put_back(place)
        if done.returncode == 0 and words[0] == "cat":
            self.assertEqual(done.stdout, TEXT)
        self.assertIn(self.records(), (TEXT, TEXT + b"four\n") if done.returncode == 0 else (TEXT,))

    def test_nothing_is_waited_for_or_lost(self):
        for name in PLACES:
            for kind, make in STRANGERS.items():
                for words in COMMANDS:
                    with self.subTest(place=name, kind=kind, command=words[0]):
                        self.begin_again()
                        place = self.folder / "events" / name
                        place.unlink(missing_ok=True)
                        make(place)
                        self.check(place, words)
