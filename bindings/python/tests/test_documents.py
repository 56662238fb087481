"""Runs the pieces of Python that the documents show."""

import contextlib
import io
import os
import pathlib
import re
import tempfile
import unittest

TOP = pathlib.Path(__file__).resolve().parents[3]
MARKER = "<!-- run by: bindings/python/tests/test_documents.py -->"
PIECE = re.compile(re.escape(MARKER) + r"\n```python\n(.*?)^```$", re.S | re.M)


class Documents(unittest.TestCase):
    """Each page's pieces run in order, in a folder of their own."""

    def test_each_piece_of_the_documents_runs(self):
        names = ["README.md", "docs/PYTHON.md", "bindings/README.md", "bindings/python/README.md"]
        for name in names:
            pieces = PIECE.findall((TOP / name).read_text())
            self.assertTrue(pieces, f"{name} has no piece of Python")
            for piece in pieces:
                with self.subTest(page=name, piece=piece):
                    self.run_piece(piece)

    def run_piece(self, piece):
        """Runs a piece of code, which has to print something."""
        before, told = os.getcwd(), io.StringIO()
        with tempfile.TemporaryDirectory() as folder, contextlib.redirect_stdout(told):
            os.chdir(folder)
            try:
                exec(compile(piece, "piece", "exec"), {})
            finally:
                os.chdir(before)
        self.assertTrue(told.getvalue())
