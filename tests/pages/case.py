"""What the tests of pages share: a browser that each of them shows its pages in."""

from __future__ import annotations

from harness import ProgramCase
from pages.browser import Browser, find


class PageCase(ProgramCase):
    """A test with a browser of its own. It is skipped where there is no Chromium."""

    def setUp(self):
        super().setUp()
        path = find()
        if path is None:
            self.skipTest("there is no Chromium")
        self.browser = Browser(path, self.new_folder())
        self.addCleanup(self.browser.end)
        self.browser.begin()
