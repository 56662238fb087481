"""What the trial says of edits that are no wrong bodies, and where it finds the function that an edit changes."""

from __future__ import annotations

import shutil
import unittest
from dataclasses import replace

from harness import FolderCase
from planted.bodies import BadBody, Body, changed, function_at
from planted.crates import PARTS, listed
from planted.trial import Check, Trial
from planted.unproved import without_bodies

EDITS = {
    "digits_are_swapped": ("page.push(digit_of(*byte / 16))?;", "page.push(digit_of(*byte % 16))?;"),
    "the_same_is_said_otherwise": ("if blocks <= FEW_BLOCKS {", "if blocks < FEW_BLOCKS + 1 {"),
    "a_name_is_unknown": ("let shown = document.len().min(most);", "let shown = document.len().min(more);"),
    "a_function_is_unknown": ("if number < 10 {", "if number <= 10 {"),
    "a_variable_has_another_name": ("for byte in bytes {", "for octet in bytes { let byte = octet;"),
}
SOURCE = """\
impl<'a, H: Fn(u8) -> u8> Iterator for Items<'a, H, Walk> {
    fn next(&mut self) -> Option<u8>
        ensures { result ≡ None }
    {
        None
    }
}

impl<T: Drop> From<Failed<T>> for Fault {
    fn from(failed: Failed<T>) -> Fault {
        Fault
    }
}

impl<'p, F: Files + Drop, P: Progress + Drop> Filling
    for Appended<'p, F, P> {
    fn fill(&mut self) -> u8 {
        self.copied + 1
    }
}

impl<P: Pages> Pages for &mut P {
    fn next_page(&mut self) -> u8 {
        Pages::next_page(&mut **self)
    }
}

impl Page {
    pub(crate) fn title(&self) -> u8 {
        for byte in self.bytes() {
            note(byte);
        }
        0
    }
}

mod inner {
    pub fn first() {}
    pub fn second() {
        first();
    }
}

const MOST: usize = 3;
"""


class NamedBodies(Trial):
    """A trial in which one body has another function than its file says."""

    def bodies(self) -> list[Body]:
        found = super().bodies()
        return [replace(one, function="no::such") if one.name == "a_function_is_unknown" else one for one in found]


class Teeth(FolderCase):
    def test_each_edit_gets_its_own_verdict(self):
        crate = listed()["store_page"]
        for part in PARTS:
            if (crate.folder / part).is_dir():
                shutil.copytree(crate.folder / part, self.folder / part)
        (self.folder / "planted").mkdir()
        for name, (old, new) in EDITS.items():
            self.write(f"planted/{name}.edit", f"file: src/excerpts.rt\nold: {old}\nnew: {new}\n".encode())
        trial = NamedBodies(replace(crate, folder=self.folder)).run()
        self.assertEqual(trial.refused, ["digits_are_swapped"], trial.faults)
        self.assertRegex(trial.faults["the_same_is_said_otherwise"], "^NOT REFUSED: excerpts::excerpt_bytes is proved")
        self.assertRegex(trial.faults["a_name_is_unknown"], "^BAD EDIT: .*more")
        self.assertRegex(trial.faults["a_function_is_unknown"], "^BAD EDIT: .*has no function `no::such`")
        # It means the same, but the proof names the variable that is gone.
        self.assertRegex(trial.faults["a_variable_has_another_name"], "^BAD EDIT: no contract was tried, as a proof")


class Words(unittest.TestCase):
    def test_the_function_of_a_line_has_the_name_of_its_check(self):
        lines = SOURCE.splitlines()
        for line, name in (
            ("        None", "ItemsWalkIterator::next"), ("        Fault", "FaultFromFailed::from"),
            ("            note(byte);", "Page::title"), ("        first();", "pages::page::inner::second"),
            ("        Pages::next_page(&mut **self)", "RefMutPages::next_page"),
            ("        self.copied + 1", "AppendedFilling::fill"),
        ):
            with self.subTest(line):
                self.assertEqual(function_at("src/pages/page.rt", SOURCE, lines.index(line)), name)
        with self.assertRaises(BadBody):
            function_at("src/pages/page.rt", SOURCE, len(lines) - 1)

    def test_an_old_text_is_in_its_file_once(self):
        self.assertEqual(changed("a\nb\nc\n", (("b", "d"), ("d", "e"))), ("a\ne\nc\n", [1, 1]))
        for old in ("b", "x"):
            with self.subTest(old), self.assertRaises(BadBody):
                changed("b\nb\n", ((old, "c"),))

    def test_a_function_of_another_name_has_no_body(self):
        given = without_bodies(SOURCE, {"next", "title"})
        for line in ("        None", "            note(byte);", "    pub fn first() {}", "const MOST: usize = 3;"):
            with self.subTest(line):
                self.assertIn(f"{line}\n", given)
        for line in ("        Fault", "        self.copied + 1", "        first();"):
            with self.subTest(line):
                self.assertNotIn(f"{line}\n", given)
        self.assertEqual(given.count("        loop {}\n"), 4)

    def test_a_refusal_is_of_a_contract(self):
        output = (
            "./proofs/log/Log/sync/Answers.antt:3:5: error: `returns`: computed, the two types differ\n"
            "./proofs/log/Log/join/Answers.antt:3:5: error: `gone` is not in scope\n"
            "./proofs/log/Log/seal/Answers.antt:3:5: error: `returns`: record `logs.Lts.View.After`\n"
            "  (nearest: .from-in) has no field `from`\n"
            "fn logs::log::Log::sync: not proved\n"
            "fn logs::log::Log::seal: not proved\n"
            "fn logs::log::Log::join: not proved\n"
            "fn logs::log::Log::close: no proof: it calls `logs::log::Log::sync`, which is not proved\n"
            "fn logs::log::Log::open: no proof: expected answers in ./proofs; `search` did not prove `returns`\n"
            "only=5 proved=0\n"
        )
        check = Check(output, 1)
        for function, wanted in (
            ("log::Log::sync", True), ("Log::join", False), ("Log::close", False), ("Log::open", True), ("sync", True),
            ("Log::none", False), ("Log::seal", False),
        ):
            with self.subTest(function):
                self.assertEqual(check.verdict(function).is_of_contract(), wanted)
