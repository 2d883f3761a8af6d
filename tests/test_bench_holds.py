"""bench_holds.py: its awk works out the report that the rules give, its year is one that doubles can add, and it tells medians."""

import pathlib
import shutil
import subprocess
import sys
import tempfile
import unittest

ROOT = pathlib.Path(__file__).parents[1]
sys.path.insert(0, str(ROOT / "tools"))
import bench_holds as tool  # noqa: E402

EXAMPLE = ROOT / "examples" / "year.holds"


@unittest.skipUnless(shutil.which("mawk"), "there is no mawk")
class Awk(unittest.TestCase):
    def said_of(self, text):
        return subprocess.run(["mawk", tool.AWK], input=text, capture_output=True, text=True, check=True).stdout

    def test_the_example(self):
        self.assertEqual(self.said_of(EXAMPLE.read_text()), EXAMPLE.with_suffix(".report").read_text())

    def test_means_below_zero(self):
        crews = self.said_of("1 1 -7\n1 1 0\n1 1 0\n2 1 -4\n").splitlines()[1:4]
        self.assertEqual(crews, ["crew 0 0 0", "crew 1 3 -7 0 -3 2", "crew 2 1 -4 -4 -4 0"])


class Year(unittest.TestCase):
    def test_every_line_is_one_and_doubles_can_add_them(self):
        totals = [0] * 64
        lines = tool.year().splitlines()
        self.assertEqual(len(lines), 100_000)
        for line in lines:
            crew, number, hold = map(int, line.split(" "))
            self.assertLess(number, 2**32)
            totals[crew] += abs(hold)
        self.assertLess(max(totals), 2**53)


class Times(unittest.TestCase):
    def test_the_ratio_is_of_the_medians(self):
        times = {"holds": [tool.Took(s, 1) for s in (1, 2, 9)], "mawk": [tool.Took(s, 1) for s in (4, 4, 4)]}
        ours, theirs, ratio = tool.told(times)
        self.assertEqual(ours, "holds: 2.000 (1.000 to 9.000) s of processor time, 1.000 (1.000 to 1.000) s by the clock")
        self.assertTrue(theirs.startswith("mawk: 4.000 "))
        self.assertEqual(ratio, "holds to mawk: 0.50 by the medians; 3 rounds 0.50 (0.25 to 2.25), quartiles 0.25 to 2.25")

    def test_sides_that_differ(self):
        with tempfile.NamedTemporaryFile() as text:
            sides = [tool.Side("a", ["echo", "1"]), tool.Side("b", ["echo", "2"])]
            with self.assertRaises(tool.Bad) as caught:
                tool.in_turns(sides, text.name, 2)
            self.assertIn("differ", str(caught.exception))
            times = tool.in_turns([sides[0], tool.Side("b", ["echo", "1"])], text.name, 2)
            self.assertEqual([len(took) for took in times.values()], [2, 2])
            with self.assertRaises(tool.Bad) as caught:
                tool.run(tool.Side("c", ["false"]), text.name)
            self.assertIn("c ended with status 1", str(caught.exception))


if __name__ == "__main__":
    unittest.main()
