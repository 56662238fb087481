"""A trial of a crate's wrong bodies: rounds, each one check of a copy of the crate in which several bodies are wrong.

A function is proved against the contracts of those that it calls, and not against their bodies. So a wrong body shows
in the verdict on its own function alone, and wrong bodies of several functions are known apart. Each function that is
as it was, but one, has a hole in the place of its proof and a loop in the place of its body, so that nothing of it is
proved. In one round each function is wrong in one way at most; a body of which the check says only that its function
calls one that is not proved waits for the next round.
"""

from __future__ import annotations

import os
import re
import shutil
import signal
import subprocess
import tempfile
import time
from dataclasses import dataclass, field
from pathlib import Path

from planted.bodies import BadBody, Body, body, changed, paths
from planted.crates import PARTS, PLAIN, Crate, kit
from planted.unproved import has_own_proof, leave_unproved, without_bodies

# The last line of a check that came to its verdicts.
ENDED = re.compile(r"^only=\d+ holes=\d+\n?\Z", re.M)
# An error of a proof that only names what the wrong body no longer has: no contract was tried.
NAMES = re.compile(r"has no field|is not in scope|has no `|was not admitted")
SEARCHED = "`search` did not prove"
# Where the checks of a trial keep what they proved.
KEPT = "kept"
# What a check says of a function whose proof it admits, where those that it calls have a hole in place of theirs.
ADMITTED = re.compile(r"no holes|depends on a hole in `\S+\.anything`")


@dataclass(frozen=True)
class Verdict:
    """What a check says of a function, and the errors in the files of its proof."""

    said: str
    errors: list[str]

    def is_of_contract(self) -> bool:
        """Whether it refuses the function's own body, and not for names of its proof alone."""
        return SEARCHED in self.said or any(not NAMES.search(error) for error in self.errors)


@dataclass(frozen=True)
class Check:
    """What a check printed, and the status that it ended with."""

    output: str
    status: int

    def has_ended(self) -> bool:
        """Whether it came to its verdicts."""
        return bool(ENDED.search(self.output)) and self.status in (0, 1, 3)

    def verdict(self, function: str) -> Verdict:
        """Its verdict on a function, which is named by its path or by the end of it."""
        said = dict(re.findall(r"^fn \w+::(\S+): (.*)$", self.output, re.M))
        ends = [path for path in said if path.endswith(f"::{function}")]
        path = function if function in said else ends[0] if len(ends) == 1 else ""
        if not path:
            return Verdict("", [])
        folder = re.escape(path.replace("::", "/"))
        # A long error goes on in lines that are indented.
        error = rf"^(?:\./)?proofs/{folder}/\w+\.antt:\d+:\d+: error: (.*(?:\n  .*)*)$"
        errors = re.findall(error, self.output, re.M)
        return Verdict(said[path], errors)

    def faults(self) -> str:
        """The first errors of a check that came to no verdict."""
        lines = [line for line in self.output.splitlines() if "error" in line or line.startswith("rattle:")]
        return "; ".join(lines[:3]) or f"it ended with {self.status}"


@dataclass
class Trial:
    """A crate whose wrong bodies are tried: those that were refused, what is wrong with others, the most that a round
    tries, a function that none of them changes, how often it was proved beside them, and what it took."""

    crate: Crate
    refused: list[str] = field(default_factory=list)
    faults: dict[str, str] = field(default_factory=dict)
    most: int = 1000
    rounds: int = 0
    beside: list[str] = field(default_factory=list)
    admitted: int = 0
    seconds: float = 0
    began: float = field(default_factory=time.monotonic)
    ended: float = 0

    def run(self) -> Trial:
        """Tries all of them."""
        self.began = time.monotonic()
        with tempfile.TemporaryDirectory(prefix="zevkhadun-planted-") as folder:
            room = Path(folder)
            for part in PARTS:
                if (self.crate.folder / part).is_dir():
                    shutil.copytree(self.crate.folder / part, room / part)
            left = known = self.bodies()
            self.beside = [one for one in self.crate.functions() if is_beside(one, known)][:1]
            while left:
                left = self.round(room, left)
            if self.refused and not self.admitted:
                self.control(room, next(one for one in known if one.name in self.refused))
        self.ended = time.monotonic()
        return self

    def __str__(self) -> str:
        took = f"{self.seconds:.0f} processor seconds, {self.ended - self.began:.0f} of the clock"
        return f"{self.crate.name}: {len(self.refused)} refused, {len(self.faults)} not, {self.rounds} rounds, {took}"

    def bodies(self) -> list[Body]:
        """The wrong bodies that can be tried."""
        found = []
        for path in paths(self.crate.folder):
            try:
                found.append(body(path))
            except (BadBody, OSError, ValueError) as why:
                self.faults[path.stem] = f"BAD EDIT: {why}"
        return found

    def round(self, room: Path, left: list[Body]) -> list[Body]:
        """Tries one body of each function, and returns those that are left."""
        texts, tried = together(self.crate.folder, left, self.most)
        self.rounds += 1
        check = self.check(room, texts, [*(one.function for one in tried), *self.beside])
        if not check.has_ended():
            self.leave_out(room, check, tried)
            return [one for one in left if one.name not in self.faults]
        self.admitted += sum(bool(ADMITTED.match(check.verdict(one).said)) for one in self.beside)
        for one in tried:
            outcome = self.outcome(check.verdict(one.function), one, len(tried) == 1)
            if outcome:
                self.faults[one.name] = outcome
            elif outcome is not None:
                self.refused.append(one.name)
        others = [one for one in left if one.name not in self.faults and one.name not in self.refused]
        if len(others) == len(left):
            self.most = 1
        return others

    def leave_out(self, room: Path, check: Check, tried: list[Body]) -> None:
        """Finds the bodies for which a check came to no verdict: they do not compile, or their functions are unknown.
        If there are none, each is tried by itself from now on."""
        for one in tried:
            its = check
            if len(tried) > 1 and f"has no function `{one.function}`" not in check.output:
                its = self.check(room, together(self.crate.folder, [one])[0], [""])
            if not its.has_ended():
                self.faults[one.name] = no_verdict(its)
        if not any(one.name in self.faults for one in tried):
            self.most = 1

    def control(self, room: Path, one: Body) -> None:
        """Without its edit a function is proved, so these checks don't refuse whatever they are given."""
        if not ADMITTED.match(self.check(room, {}, [one.function]).verdict(one.function).said):
            self.faults[one.name] = f"NOT TRIED: {one.function} is not proved without the edit either"

    def outcome(self, verdict: Verdict, one: Body, is_alone: bool) -> str | None:
        """What is wrong with a body that was tried: nothing if it was refused, None if another round has to show it."""
        if ADMITTED.match(verdict.said):
            return f"NOT REFUSED: {one.function} is proved all the same"
        if verdict.is_of_contract():
            return ""
        if not is_alone:
            return None
        if verdict.errors:
            return f"BAD EDIT: no contract was tried, as a proof names what it took away: {verdict.errors[0]}"
        return f"NOT TRIED: the check says of {one.function}: {verdict.said or 'nothing'}"

    def check(self, room: Path, texts: dict[str, str], functions: list[str]) -> Check:
        """Checks these functions in the copy of the crate, with other texts in some of its files. All others are taken
        by their contracts."""
        proofs = self.crate.folder / "proofs"
        others = [path for path in self.crate.functions() if not any(is_named(path, one) for one in functions)]
        unproved = [path for path in others if PLAIN.fullmatch(path) and not has_own_proof(proofs, path)]
        shutil.rmtree(room / "proofs", ignore_errors=True)
        if proofs.is_dir():
            shutil.copytree(proofs, room / "proofs")
        leave_unproved(room / "proofs", self.crate.name, unproved)
        kept = {path.rpartition("::")[2] for path in [*functions, *(path for path in others if path not in unproved)]}
        for path in (self.crate.folder / "src").rglob("*.rt"):
            file = str(path.relative_to(self.crate.folder))
            text = texts.get(file) or path.read_text(encoding="utf-8")
            (room / file).write_text(without_bodies(text, kept) if unproved else text, encoding="utf-8")
        only = [word for function in functions for word in ("--only", function)]
        words = [*self.crate.words(), "--incremental", KEPT, "--allow-holes", *only]
        command = [str(kit() / "bin/rattle"), "check", *words]
        return Check(*self.ran(room, command))

    def ran(self, room: Path, command: list[str]) -> tuple[str, int]:
        """Runs a command in a folder: what it prints, and its status. What it took of a processor is added."""
        with tempfile.TemporaryFile() as output:
            how = {"stdin": subprocess.DEVNULL, "stdout": output, "stderr": subprocess.STDOUT}
            with subprocess.Popen(command, cwd=room, **how) as running:
                _, status, used = os.wait4(running.pid, 0)
                running.returncode = os.waitstatus_to_exitcode(status)
            self.seconds += used.ru_utime + used.ru_stime
            output.seek(0)
            return output.read().decode(errors="replace"), running.returncode


def is_beside(path: str, bodies: list[Body]) -> bool:
    """Whether a function, and no constant, is changed by none of the bodies."""
    name = path.rpartition("::")[2]
    return bool(PLAIN.fullmatch(path)) and name.islower() and not any(is_named(path, one.function) for one in bodies)


def is_named(path: str, function: str) -> bool:
    """Whether a function that a check names by its path or by the end of it may be this one."""
    return f"::{path}".endswith(f"::{function}")


def together(folder: Path, bodies: list[Body], most: int = 1) -> tuple[dict[str, str], list[Body]]:
    """The files that have one wrong body of each function, and these bodies; of two for a function the first."""
    texts: dict[str, str] = {}
    taken: list[Body] = []
    for one in bodies:
        if len(taken) == most or one.function in [other.function for other in taken]:
            continue
        text = texts.get(one.file) or (folder / one.file).read_text(encoding="utf-8")
        try:
            texts[one.file], _ = changed(text, one.pairs)
        except BadBody:
            # Another one has changed what it changes.
            continue
        taken.append(one)
    return texts, taken


def no_verdict(check: Check) -> str:
    """Why a check of one body came to no verdict: it cannot be compiled, or the machine or the prover failed."""
    kind = "BAD EDIT" if check.status in (1, 2) else "NOT TRIED"
    memory = ", most likely for memory" if check.status == -signal.SIGKILL else ""
    return f"{kind}: {check.faults()}{memory}"
