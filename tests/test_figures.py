"""figures.py counts what says something."""

import pathlib
import sys
import tempfile
import unittest

sys.path.insert(0, str(pathlib.Path(__file__).parents[1] / "tools"))
import figures as tool  # noqa: E402


class Figures(unittest.TestCase):
    def setUp(self):
        folder = tempfile.TemporaryDirectory()
        self.addCleanup(folder.cleanup)
        self.root = pathlib.Path(folder.name)

    def write(self, name, text):
        file = self.root / name
        file.parent.mkdir(parents=True, exist_ok=True)
        file.write_text(text)

    def test_sizes(self):
        self.write("src/lib.rt", "// about\n\nfn f() {\n}\n")
        self.write("specs/A.antt", "-- about\na : N\na = 1\n")
        self.write("proofs/B.antt", "b : N\n")
        self.write("proofs/f/Answers.antt", "-- about\nc : N\nc = 1\n")
        self.write("proofs/f/Invariants.antt", "d = 2\n")
        self.write("must-fail/x.edit", "# a: one\nold: x\n\n# b: two\nold: # y\n")
        self.write("must-fail/y.edit", "# c: three\n")
        self.assertEqual(tool.sizes(self.root), (2, 2, 1, 3, 2, 3))

    def test_crates_in_order(self):
        self.write("crates.txt", "# all\nb: c\nc:   # low\nd staticlib: c\n")
        self.assertEqual(list(tool.crates(self.root)), ["b", "c", "d"])


if __name__ == "__main__":
    unittest.main()
