"""What a power cut leaves of a log to which `log append` appends, which it or `log seal` seals, or whose segments
`log compact` joins and `log drop` removes.

Each beginning of the recorded calls is replayed on the model of a disk, as for a file that is published. The program
then opens what is left, to read it and to write it: it has the first records, and all whose number had been printed.
"""

from __future__ import annotations

import itertools
import shutil
from pathlib import Path

from harness import Program, ProgramCase, numbers
from replay.disk import Disk
from replay.recording import DESCRIPTOR, Recording, recorded, text_of

OUTPUT = 1
BOOT = Path("/proc/sys/kernel/random/boot_id").read_bytes().strip()


class LogRecording(Recording):
    """The calls of a run, with what it prints."""

    def wrote(self, call: str, arguments: str, result: int) -> None:
        if call == "write" and int(DESCRIPTOR.match(arguments)[1]) == OUTPUT:
            self.calls.append(("print", text_of(arguments)[:result]))
        else:
            super().wrote(call, arguments, result)


class LogReplay:
    """Calls on the folder of a log that has some records, and is to have these after them."""

    def __init__(self, program: Program, files: dict[str, bytes], count: int, text: bytes) -> None:
        self.program, self.files, self.count, self.text = program, files, count, text
        self.found: dict[frozenset, bytes | None] = {}

    def records(self, left: dict[str, bytes]) -> bytes | None:
        """The records of a folder, as an opening to write finds them; None where it or a reader is refused."""
        key = frozenset(left.items())
        if key not in self.found:
            self.found[key] = self.read(left)
        return self.found[key]

    def read(self, left: dict[str, bytes]) -> bytes | None:
        """Opens a folder of these files as a reader does, and then as a writer does."""
        folder = self.program.case.new_folder() / "log"
        folder.mkdir()
        for name, data in left.items():
            # After a power cut the machine starts once more: it has another number then.
            (folder / name).write_bytes(data.replace(BOOT, b"earlier") if name == "lock" else data)
        seen = self.program.run("log", "cat", folder)
        opened = self.program.run("log", "append", folder)
        text = self.program.run("log", "cat", folder)
        shutil.rmtree(folder.parent)
        if opened.returncode or text.returncode:
            return None
        if "tail.log" in left and (seen.returncode, seen.stdout) != (0, text.stdout):
            return None
        return text.stdout

    def is_right(self, left: dict[str, bytes], acknowledged: int) -> bool:
        """Whether a folder has the first records, and as many as are acknowledged."""
        text = self.records(left)
        return text is not None and self.text.startswith(text) and text.count(b"\n") >= acknowledged

    def faults(self, calls: list[tuple]) -> tuple[list[int], int]:
        """After how many calls a crash may lose a record, and how many folders were looked at."""
        disk = Disk(self.files)
        acknowledged = self.count
        faults, looks = [], 0
        for done, call in enumerate([("print", b""), *calls]):
            if call[0] == "print":
                acknowledged += call[1].count(b"\n")
            else:
                disk.do(call)
            for left in disk.left():
                looks += 1
                if not self.is_right(left, acknowledged):
                    faults.append(done)
                    break
        return faults, looks


class KilledReplay(LogReplay):
    """Calls on the folder of a log whose writer was killed before them, and the machine was not.

    The first line of the text is the record that the later writer appends; records are acknowledged by number.
    """

    def has(self, left: dict[str, bytes], acknowledged: dict[int, bytes]) -> bool:
        """Whether a folder has these records under their numbers."""
        text = self.records(left)
        lines = [] if text is None else text.splitlines()
        return text is not None and all(lines[number:number + 1] == [line] for number, line in acknowledged.items())

    def losses(self, disk: Disk, calls: list[tuple], acknowledged: dict[int, bytes]) -> list[int]:
        """After how many calls a crash may lose a record."""
        known = dict(acknowledged)
        losses = []
        for done, call in enumerate([("print", b""), *calls]):
            if call[0] == "print":
                known.update((int(number), self.text.splitlines()[0]) for number in call[1].split())
            else:
                disk.do(call)
            if not all(self.has(left, known) for left in disk.left()):
                losses.append(done)
        return losses


class DropReplay(LogReplay):
    """Calls on the folder of a log that lose its first segments, one after another.

    Once this many lines are printed, as many segments are gone.
    """

    def __init__(self, program: Program, files: dict[str, bytes], texts: list[bytes]) -> None:
        super().__init__(program, files, 0, texts[0])
        self.texts = texts

    def is_right(self, left: dict[str, bytes], acknowledged: int) -> bool:
        return self.records(left) in self.texts[acknowledged:]


class Logs(ProgramCase):
    """The calls of `log append`, `log seal`, `log compact` and `log drop`."""

    def setUp(self) -> None:
        self.require("strace")
        super().setUp()
        self.log = self.folder / "events"
        self.log.mkdir()

    def files(self) -> dict[str, bytes]:
        """The files of the log."""
        return {path.name: path.read_bytes() for path in self.log.iterdir()}

    def check(self, count: int, text: bytes, *words: str | Path) -> tuple[LogReplay, list[tuple]]:
        """Records a command on a log that has this many records of the text, and replays its calls."""
        replay = LogReplay(self.program, self.files(), count, text)
        calls = recorded(self.program.path, self.log, *words, kind=LogRecording)
        faults, looks = replay.faults(calls)
        self.assertEqual(faults, [], f"a crash after that many of {calls} loses a record")
        self.assertGreater(looks, 10)
        self.assertEqual(self.program.gives("log", "cat", self.log), text)
        return replay, calls

    def check_syncs(self, replay: LogReplay, calls: list[tuple], needless: int) -> None:
        """A crash loses a record if a sync is left out, whichever it is, but for this many.

        Nor is the one missed by which an opening syncs a folder in which no writer has left a mark.
        """
        needless += "lock" not in replay.files
        syncs = [place for place, call in enumerate(calls) if call[0] == "sync"]
        unnoticed = [place for place in syncs if not replay.faults(calls[:place] + calls[place + 1:])[0]]
        self.assertEqual(len(unnoticed), needless, [(place, calls[place]) for place in unnoticed])
        self.assertGreater(len(syncs), needless)

    def test_a_log_is_begun_and_grows(self):
        new = self.write("new.txt", numbers(3))
        replay, calls = self.check(0, numbers(3), "log", "append", self.log, new, "--sync", "every", "--number")
        self.check_syncs(replay, calls, 0)

    def test_records_are_appended_and_sealed(self):
        self.program.gives("log", "append", self.log, input=numbers(2))
        new = self.write("new.txt", numbers(8, 3))
        words = ("--sync", "every", "--number", "--seal-size", "130")
        replay, calls = self.check(2, numbers(8), "log", "append", self.log, new, *words)
        self.assertGreater(len([path for path in self.log.iterdir() if path.suffix == ".store"]), 1)
        self.check_syncs(replay, calls, 0)

    def test_the_tail_is_replaced_by_each_sync(self):
        self.program.gives("log", "append", self.log, input=numbers(2))
        new = self.write("new.txt", numbers(8, 3))
        words = ("--sync", "every", "--number", "--two-syncs", "--seal-size", "60")
        replay, calls = self.check(2, numbers(8), "log", "append", self.log, new, *words)
        # Without the last sync of a seal a crash may bring the old tail back, whose records the segment has, too; the
        # next batch syncs the folder again.
        sealed = len(list(self.log.glob("*.store")))
        self.assertGreater(sealed, 1)
        self.check_syncs(replay, calls, sealed)

    def test_a_log_is_sealed(self):
        self.program.gives("log", "append", self.log, input=numbers(5))
        replay, calls = self.check(5, numbers(5), "log", "seal", self.log)
        # Without the last sync a crash may bring the old tail back, whose records the segment has, too.
        self.check_syncs(replay, calls, 1)

    def seal_three(self) -> None:
        """Makes three segments of ten records each."""
        for i in range(3):
            self.program.gives("log", "append", self.log, input=numbers(i * 10 + 9, i * 10))
            self.program.gives("log", "seal", self.log)

    def test_segments_are_joined(self):
        self.seal_three()
        replay, calls = self.check(30, numbers(29, 0), "log", "compact", self.log)
        self.assertEqual(len([path for path in self.log.iterdir() if path.suffix == ".store"]), 1)
        # Without the sync after a removal a crash may bring a segment back, whose records the joined one has, too.
        self.check_syncs(replay, calls, 2)

    def test_old_segments_are_removed(self):
        self.seal_three()
        self.program.gives("log", "append", self.log, input=numbers(34, 30))
        replay = DropReplay(self.program, self.files(), [numbers(34, first) for first in (0, 10, 20)])
        calls = recorded(self.program.path, self.log, "log", "drop", self.log, "--before", "25", kind=LogRecording)
        calls.append(("print", b"\n\n"))
        self.assertEqual(replay.faults(calls)[0], [], f"a crash after that many of {calls} leaves another log")
        self.check_syncs(replay, calls, 0)

    def test_what_a_crash_left_is_cut_off(self):
        self.program.gives("log", "append", self.log, input=numbers(2))
        with open(self.log / "tail.log", "ab") as tail:
            tail.write(b"\1\x20\0\0\0torn")
        (self.log / "tail.log.part").write_bytes(b"torn")
        # As after a writer that was killed: no mark says that it ended well.
        (self.log / "lock").unlink()
        new = self.write("new.txt", numbers(4, 3))
        replay, calls = self.check(2, numbers(4), "log", "append", self.log, new, "--sync", "every", "--number")
        # The opening replaces the tail that it finds, and does not sync it: if it ended then, the next one would take
        # its end for damage.
        self.check_syncs(replay, calls, 0)

    def check_killed(self, count: int, *words: str | Path) -> None:
        """Kills a command after each of its calls, on a log that has this many records, and then runs two others.

        Each begins with the folder as a look sees it. Nothing was synced by the kill.
        """
        files = self.files()
        first = dict(enumerate(numbers(count).splitlines()))
        replay = KilledReplay(self.program, files, count, b"next\n")
        killed = [call for call in recorded(self.program.path, self.log, *words, kind=LogRecording)
                  if call[0] != "print"]
        new = self.write("next.txt", replay.text)
        ways = ("append", "--sync", "every", "--number"), ("seal",)
        for done, later in itertools.product(range(len(killed) + 1), ways):
            disk = Disk(files)
            for call in killed[:done]:
                disk.do(call)
            folder = self.new_folder() / "events"
            folder.mkdir()
            for name, file in disk.names.items():
                (folder / name).write_bytes(file.now())
            inputs = (new,) if later[0] == "append" else ()
            calls = recorded(self.program.path, folder, "log", later[0], folder, *inputs, *later[1:], kind=LogRecording)
            self.assertEqual(replay.losses(disk, calls, first), [], f"killed after {killed[:done]}, then {calls}")

    def test_a_writer_is_killed_and_then_the_power_fails(self):
        self.program.gives("log", "append", self.log, input=numbers(2))
        new = self.write("new.txt", numbers(3, 3))
        self.check_killed(2, "log", "append", self.log, new)

    def test_a_writer_with_two_syncs_is_killed_and_then_the_power_fails(self):
        self.program.gives("log", "append", self.log, input=numbers(2))
        new = self.write("new.txt", numbers(3, 3))
        self.check_killed(2, "log", "append", self.log, new, "--two-syncs")

    def test_a_seal_is_killed_and_then_the_power_fails(self):
        self.program.gives("log", "append", self.log, input=numbers(2))
        self.check_killed(2, "log", "seal", self.log)

    def test_numbers_that_are_printed_too_early_are_noticed(self):
        new = self.write("new.txt", numbers(3))
        replay, calls = self.check(0, numbers(3), "log", "append", self.log, new, "--sync", "every", "--number")
        early = [call for call in calls if call[0] == "print"] + [call for call in calls if call[0] != "print"]
        self.assertNotEqual(replay.faults(early)[0], [])
