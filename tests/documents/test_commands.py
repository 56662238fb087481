"""The functions of which contracts say what the program does are those that the program calls."""

from __future__ import annotations

import re

from documents.case import Rules
from documents.pages import text_of
from harness import TOP

# By the command, the call with its contract.
CALLS = {
    "pack": "pack",
    "append": "append",
    "merge": "merge",
    "get": "print_named",
    "cat": "printing.print",
    "export": "export",
    "log append": "append",
    "log get": "print_named",
    "log cat": "print",
}
FUNCTION = re.compile(r"^( *)(?:pub )?fn (\w+).*?^\1\}", re.M | re.S)


def reached(text: str) -> str:
    """The functions of a module that `run` reaches, whole. Those of one name count as one."""
    found: dict[str, str] = {}
    for whole in FUNCTION.finditer(text):
        found[whole[2]] = found.get(whole[2], "") + whole.group()
    names = ["run"]
    for name in names:
        names += [other for other in found if other not in names and re.search(rf"\b{other}\(", found[name])]
    return "".join(found[name] for name in names)


class Commands(Rules):
    def test_each_command_makes_the_call_with_its_contract(self):
        main = text_of(TOP / "crates/zevkhadun/src/main.rt")
        logs = text_of(TOP / "crates/program_logs/src/lib.rt")
        self.assertRegex(main, r'"log" => program_logs::run\(rt, system, files, matches\)')
        for words, call in CALLS.items():
            group, _, command = words.rpartition(" ")
            crate = "program_logs" if group else "program_stores"
            with self.subTest(words):
                self.assertRegex(logs if group else main, rf'"{command}" => {command}::run\(')
                bodies = reached(text_of(TOP / f"crates/{crate}/src/{command}.rt"))
                self.assertRegex(bodies, rf"[ (]{re.escape(call)}\(")

    def test_the_theorem_is_of_these_calls(self):
        text = text_of(TOP / "crates/program_stores/src/round_trip.rt")
        self.assertIn("use crate::pack::{PackingOptions, pack};", text)
        for command in ("pack", "cat"):
            self.assertIn(f" {CALLS[command]}(", text)
