"""explain.py says every line of an answer in words, and names the line that is none of plan's."""

import pathlib
import sys
import unittest

ROOT = pathlib.Path(__file__).parents[1]
sys.path.insert(0, str(ROOT / "tools"))
import explain as tool  # noqa: E402


class Explained(unittest.TestCase):
    def test_crossing(self):
        answer = (ROOT / "crates" / "plan" / "stdout").read_text()
        self.assertEqual(
            tool.explained(answer),
            "1 path, for 1 arrival time found in 1 sweep, with 1 place to wait in view\n"
            "to be there at 10 s: waits of 2 s in all, 1 pop\n"
            "  go to (4, 0), there at 4 s\n"
            "  wait there for obstacle 0 until 6 s\n"
            "  go on to (10, 0), there at 12 s\n",
        )

    def test_each_path_begins_anew(self):
        move = "move 5 4024000000000000 0000000000000000\n"
        said = tool.explained("ok 0 2 3 2\npath 5 0 0\n" + move + "path 7 0 0\n" + move)
        self.assertEqual(said.count("  go to"), 2)
        self.assertIn("2 paths, for 2 arrival times found in 3 sweeps, with 0 places", said)
        self.assertIn("no wait, 0 pops", said)

    def test_every_refusal_has_its_words(self):
        for number in range(1, 13):
            self.assertIn(f"refused, {number}: ", tool.explained(f"refused {number}\n"))

    def test_seconds(self):
        for ns, said in ((0, "0 s"), (1, "0.000000001 s"), (-2_500_000_000, "-2.5 s"), (10**15, "1000000 s")):
            self.assertEqual(tool.seconds(ns), said)


class Mistakes(unittest.TestCase):
    def fails(self, text, line, what):
        with self.assertRaises(tool.Mistake) as caught:
            tool.explained(text)
        self.assertEqual(caught.exception.line, line)
        self.assertIn(what, str(caught.exception))

    def test_the_line_at_fault(self):
        self.fails("", 1, "no answer")
        self.fails("ok 0 0 0 0", 1, "no end")
        self.fails("refused 13\n", 1, "no refusal's number")
        self.fails("refused 1\nrefused 1\n", 2, "the first line")
        self.fails("ok 0 0 0 1\nmove 5 4024000000000000 0000000000000000\n", 2, "cannot follow")
        self.fails("ok 0 0 0 1\nPath 5 0 0\n", 2, "begins no line")
        self.fails("ok 0 0 0 1\npath 5 0\n", 2, "has not the fields")
        self.fails("ok 0 0 0 1\npath 5 0 0\nmove 5 402400000000000 0000000000000000\n", 3, "has not the fields")


if __name__ == "__main__":
    unittest.main()
