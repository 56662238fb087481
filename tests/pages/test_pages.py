"""A page loads nothing else, has no error, keeps within the screen, can be read, and draws its parts to scale.

Where the variable ZEVKHADUN_TEST_PICTURES has a folder, each page is left there as pictures and as printed.
"""

from __future__ import annotations

import base64
import os
from collections.abc import Sequence
from pathlib import Path

from harness import changed, numbers
from pages.case import PageCase

WIDE, NARROW = 1280, 360
SCHEMES = ("light", "dark")
BLACK, WHITE = [0, 0, 0], [255, 255, 255]
# What the texts of a page have against their ground, at least, by the Web Content Accessibility Guidelines 2.1, 1.4.3.
LEAST_CONTRAST = 4.5
MEASURE = """(() => {
  const numbers = colour => colour.match(/[0-9.]+/g).slice(0, 3).map(Number);
  const page = document.documentElement;
  const body = getComputedStyle(document.body);
  return {
    inside: page.clientWidth, needed: page.scrollWidth,
    text: numbers(body.color), ground: numbers(body.backgroundColor),
    parts: [...document.querySelectorAll(".parts div")].map(part => part.getBoundingClientRect().width),
    bytes: [...document.querySelectorAll(".key span")].map(part => Number(part.textContent.match(/[0-9]+/)[0])),
    headings: document.querySelectorAll("h2").length,
  };
})()"""
NUMBERS = numbers(20_000)
MIXED = b"".join(b"x" * (number * number % 70_000) + b"\n" for number in range(300))
LONG_NAME = "<b>&amp; a long name" + "-and-more" * 20


def luminance(colour: Sequence[float]) -> float:
    """The luminance of a colour, by the guidelines."""
    parts = [part / 255 for part in colour]
    parts = [part / 12.92 if part <= 0.03928 else ((part + 0.055) / 1.055) ** 2.4 for part in parts]
    return 0.2126 * parts[0] + 0.7152 * parts[1] + 0.0722 * parts[2]


def contrast(one: Sequence[float], other: Sequence[float]) -> float:
    """The ratio of the luminances of two colours."""
    darker, lighter = sorted((luminance(one), luminance(other)))
    return (lighter + 0.05) / (darker + 0.05)


class Pages(PageCase):
    def assert_to_scale(self, measured):
        """The file's parts have widths by their sizes."""
        parts, sizes = measured["parts"], measured["bytes"]
        self.assertEqual((len(parts), len(sizes), measured["headings"]), (3, 3, 6), "the page lacks a part")
        for width, size in zip(parts, sizes):
            # A part has two pixels at least; what they take, the others lack.
            what = f"{size} of {sum(sizes)} bytes have {width} of {sum(parts)} pixels"
            self.assertLessEqual(abs(width - sum(parts) * size / sum(sizes)), 6, what)

    def assert_fits(self, measured):
        """The page is as wide as the screen, and its text can be read against its ground."""
        self.assertLessEqual(measured["needed"], measured["inside"], "pixels that the page needs, and has")
        text, ground = measured["text"], measured["ground"]
        self.assertGreaterEqual(contrast(text, ground), LEAST_CONTRAST, f"{text} on {ground} is hard to read")

    def assert_page(self, store):
        """The page of a store has no fault on any screen."""
        page = self.folder / "page.html"
        self.program.gives("inspect", store, "--html", page, "--replace")
        self.browser.open(page)
        grounds = {}
        for width in (WIDE, NARROW):
            for scheme in SCHEMES:
                measured = self.browser.measure(MEASURE, width, scheme, "screen")
                self.assert_fits(measured)
                self.assert_to_scale(measured)
                grounds[scheme] = measured["ground"]
        printed = self.browser.measure(MEASURE, WIDE, "dark", "print")
        self.assertNotEqual(grounds["light"], grounds["dark"], "grounds of the schemes")
        self.assertEqual((printed["text"], printed["ground"]), (BLACK, WHITE), "colours in print")
        self.keep(store)
        self.assertEqual(self.browser.faults(), [])

    def keep(self, name):
        """Leaves the page as pictures and as printed, where a folder for them is given."""
        folder = Path(os.environ.get("ZEVKHADUN_TEST_PICTURES", ""))
        if not folder.name:
            return
        folder.mkdir(parents=True, exist_ok=True)
        for width in (WIDE, NARROW):
            for scheme in SCHEMES:
                self.browser.measure(MEASURE, width, scheme, "screen")
                picture = self.browser.call("Page.captureScreenshot", captureBeyondViewport=True)["data"]
                (folder / f"{name[:20]}-{width}-{scheme}.png").write_bytes(base64.b64decode(picture))
        printed = self.browser.call("Page.printToPDF", printBackground=True)["data"]
        (folder / f"{name[:20]}.pdf").write_bytes(base64.b64decode(printed))

    def test_the_page_of_each_shape_has_no_fault(self):
        for name, documents, words in (
            ("lines.store", NUMBERS, ()),
            ("deep.store", NUMBERS, ("--block-size", "16", "--period", "2")),
            ("uneven.store", MIXED, ("--block-size", "4K")),
            (f"{LONG_NAME}.store", b"\nb\n", ()),
            ("none.store", b"", ()),
            ("one document.store", b"a\n", ()),
        ):
            with self.subTest(name):
                self.pack(name, documents, *words)
                self.assert_page(name)

    def test_the_page_of_a_damaged_store_has_no_fault(self):
        """The first position of the block's table points past the block."""
        self.write("damaged.store", changed(self.pack("a.store", b"a\n"), 1, b"\xff" * 4))
        self.assert_page("damaged.store")
