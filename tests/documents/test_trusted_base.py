"""tools/trusted_base.py reads what a check prints, and docs/TRUSTED_BASE.md has its theorems and bodies."""

from __future__ import annotations

import importlib.util
import re
import subprocess
import sys
import tempfile
from pathlib import Path

from documents.case import Rules
from documents.pages import text_of
from harness import TOP

TOOL = TOP / "tools/trusted_base.py"
PAGE = TOP / "docs/TRUSTED_BASE.md"
# What a check prints of a program, shortened.
PRINTED = """\
fn hello::main: proved
axioms libc: 3 reached of the 128 declared
  libc::close
  libc::heap::rattle_alloc   reached
  libc::heap::rattle_dealloc   reached
  libc::write   reached
axioms os: none reached of the 22 declared
  os::c::rattle_errno
logic=proved functions=7 axioms=3 target=x86_64 sum=dac8208d native=nat,char,string logic-built=trusted
"""
AXIOMS = ["libc::heap::rattle_alloc", "libc::heap::rattle_dealloc", "libc::write"]
# What a check prints of a crate that reached no C function, shortened.
PRINTED_OF_NONE = """\
fn hello::greets: proved
axioms libc: none reached of the 128 declared
  libc::close
logic=proved functions=1 sum=dac8208d native=nat,char,string logic-built=trusted
"""


def loaded():
    """The module of the tool."""
    spec = importlib.util.spec_from_file_location("trusted_base", TOOL)
    module = importlib.util.module_from_spec(spec)
    sys.modules[spec.name] = module
    spec.loader.exec_module(module)
    return module


tool = loaded()


def rows(head: str) -> list[list[str]]:
    """The rows of the table with this head, their cells without backticks."""
    table = text_of(PAGE).split(f"| {head} |", 1)[1].split("\n\n")[0].splitlines()[2:]
    return [[cell.strip().replace("`", "") for cell in line.split("|")[1:-1]] for line in table]


def printed_of(outputs: dict[str, str]) -> subprocess.CompletedProcess:
    """What the tool prints for the outputs of checks, by their crates."""
    with tempfile.TemporaryDirectory() as folder:
        command = [sys.executable, TOOL]
        for crate, output in outputs.items():
            log = Path(folder, crate)
            log.write_text(output)
            command += ["--log", f"{crate}={log}"]
        return subprocess.run(command, capture_output=True, text=True, timeout=60)


def printed_for(output: str) -> subprocess.CompletedProcess:
    """What the tool prints for the output of a check."""
    return printed_of({"hello": output})


class TrustedBase(Rules):
    def test_it_prints_the_axioms_that_a_check_reached(self):
        done = printed_for(PRINTED)
        self.assertEqual(done.returncode, 0, done.stderr)
        lines = done.stdout.splitlines()
        self.assertEqual(lines[0], "hello: proved; contracts of C functions that are assumed: 3")
        self.assertEqual([line.strip() for line in lines[1:4]], AXIOMS)
        self.assertEqual(lines[4], "premises of the theorems:")

    def test_it_takes_the_checks_of_all_crates_of_the_theorems(self):
        crates = [theorem.crate for theorem in tool.THEOREMS]
        self.assertEqual(len(set(crates)), len(crates))
        for crate in ("main_theorem", "store_published", "segmented_log"):
            self.assertIn(crate, crates)
        done = printed_of(dict.fromkeys(crates, PRINTED_OF_NONE))
        self.assertEqual(done.returncode, 0, done.stderr)
        lines = done.stdout.splitlines()
        heads = [f"{crate}: proved; contracts of C functions that are assumed: none" for crate in crates]
        self.assertEqual(lines[:len(crates) + 1], [*heads, "premises of the theorems:"])
        for theorem in tool.THEOREMS:
            at = lines.index(f"    {theorem.name} ({theorem.crate}: {', '.join(theorem.functions)})")
            self.assertEqual(lines[at + 1].strip(), ", ".join(theorem.premises))

    def test_it_refuses_a_list_that_is_not_whole_and_a_check_that_proved_nothing(self):
        for what, output in (
            ("a line less", PRINTED.replace("libc::write   reached", "libc::write")),
            ("no verdict", PRINTED.replace("logic=proved", "logic=not-proved")),
        ):
            with self.subTest(what):
                done = printed_for(output)
                self.assertEqual((done.returncode, done.stdout), (1, ""))

    def test_each_theorem_is_on_the_page_and_its_functions_are_public(self):
        self.assertEqual(
            rows("theorem | crate | premises"),
            [[one.name, one.crate, ", ".join(one.premises)] for one in tool.THEOREMS],
        )
        self.assertEqual(
            rows("crate | functions"), [[one.crate, ", ".join(one.functions)] for one in tool.THEOREMS]
        )
        for theorem in tool.THEOREMS:
            sources = "".join(map(text_of, Path(TOP, "crates", theorem.crate, "src").rglob("*.rt")))
            for name in theorem.functions:
                self.assertRegex(sources, rf'pub (?:extern "C" )?fn {name}\b')

    def test_each_body_is_on_the_page(self):
        bodies = sorted((body.name, body.call) for body in tool.bodies())
        lines = rows("method | trait | call | what has to hold | shown by")
        self.assertEqual(sorted((f"{name}, of {trait}", call) for name, trait, call, _, _ in lines), bodies)
        tests = "".join(text_of(path) for path in (*TOP.glob("tests/**/*.py"), *TOP.glob("crates/test_*/src/**/*.rt")))
        for *_, test in lines:
            self.assertRegex(tests, rf"\b(?:fn|def) {test}\b")
        self.assert_looked_at(len(bodies), 8, "bodies")

    def test_main_alone_names_the_files_of_the_system(self):
        """All that the program does is done by functions over any system, and over any inputs."""
        crates = ("program_base", "program_stores", "program_logs", "zevkhadun")
        paths = [path for crate in crates for path in TOP.glob(f"crates/{crate}/src/*.rt")]
        for name in ("HostFiles", "HostInputs"):
            named = [path.relative_to(TOP / "crates").as_posix() for path in paths if name in text_of(path)]
            self.assertEqual(named, ["zevkhadun/src/main.rt"], name)

    def test_no_crate_declares_a_function_of_c(self):
        """A crate that did would rest on its contract, and no axiom of ours is to be there."""
        paths = [path for path in (TOP / "crates").glob("*/src/**/*.rt")]
        form = re.compile(r'^ *(?:unsafe )?extern "C" \{', re.M)
        self.assertEqual([path for path in paths if form.search(text_of(path))], [])
        self.assert_looked_at(len(paths), 100, "sources")
