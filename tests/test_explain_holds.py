"""explain_holds.py says a report in words, finds the line that a refusal is for, and names the line that is none of holds'."""

import contextlib
import io
import pathlib
import re
import sys
import tempfile
import unittest
from unittest import mock

ROOT = pathlib.Path(__file__).parents[1]
sys.path.insert(0, str(ROOT / "tools"))
import explain_holds as tool  # noqa: E402

YEAR = (ROOT / "examples" / "year.report").read_text()
FORM = re.compile(rb"(0|[1-9]\d*) (0|[1-9]\d*) (0|-?[1-9]\d*)")


def report_of(**crews):
    """A report with these crews' lines behind their numbers, `c3="2 5 4 2 1"`."""
    lines = [f"crew {n} {crews.get(f'c{n}', '0 0')}\n" for n in range(64)]
    rounds = sum(int(line.split(" ")[2]) for line in lines)
    return f"ok {rounds}\n{''.join(lines)}"


def ask(text):
    """A year by the rules, as far as a refusal goes: the first line that cannot be taken decides."""
    totals = {}
    for count, line in enumerate(text.removesuffix(b"\n").split(b"\n") if text else [], 1):
        form = FORM.fullmatch(line)
        crew, number, hold = map(int, form.groups()) if form else (64, 0, 0)
        if count > tool.LINES or crew > 63 or number >= 2**32 or not -(2**63) <= hold < 2**63:
            return "refused 14\n"
        totals[crew] = totals.get(crew, 0) + hold
        if not -(2**63) <= totals[crew] < 2**63:
            return "refused 15\n"
    return report_of()


class Reports(unittest.TestCase):
    def test_the_example(self):
        said = tool.explained(YEAR, {2: "Linen north", 0: "Spare"})
        self.assertTrue(
            said.startswith(
                "crew 2, Linen north: 84 rounds, 119 min 30.650788365 s in all\n"
                "  the largest hold 5 min 43.22991534 s, the mean 1 min 25.364890337 s (84 times that leaves 57 ns of the total)\n"
                "crew 5: 72 rounds, 188 min 28.571419858 s in all\n"
            ),
            said,
        )
        self.assertTrue(
            said.endswith(
                "no round: crews 0 to 1, 3 to 4, 6 to 10, 12 to 22, 24 to 39, 41 to 56 and 58 to 63 (0 is Spare)\n"
                "all together: 6 crews, 341 rounds, 565 min 37.402822383 s\n"
            ),
            said,
        )

    def test_a_mean_without_a_rest_and_holds_below_zero(self):
        said = tool.explained(report_of(c3="2 -120000000001 -1 -60000000001 1", c4="1 0 0 0 0"))
        self.assertIn("crew 3: 2 rounds, -2 min 0.000000001 s in all\n", said)
        self.assertIn("  the largest hold -0.000000001 s, the mean -1 min 0.000000001 s (2 times that leaves 1 ns", said)
        self.assertIn("crew 4: 1 round, 0 s in all\n  the largest hold 0 s, the mean 0 s (exactly)\n", said)

    def test_totals_together_may_be_past_64_bits(self):
        most = f"1 {2**63 - 1} {2**63 - 1} {2**63 - 1} 0"
        said = tool.explained(report_of(c0=most, c1=most))
        self.assertIn("all together: 2 crews, 2 rounds, 307,445,734 min 33.709551614 s\n", said)

    def test_no_round_at_all_and_none_without(self):
        said = tool.explained(report_of())
        self.assertEqual(said, "no round: crews 0 to 63\nall together: 0 crews, 0 rounds, 0 s\n")
        said = tool.explained(report_of(**{f"c{n}": "1 1 1 1 0" for n in range(64)}))
        self.assertNotIn("no round", said)
        said = tool.explained(report_of(**{f"c{n}": "1 1 1 1 0" for n in range(63)}))
        self.assertIn("no round: crew 63\n", said)

    def test_seconds(self):
        for ns, said in ((0, "0 s"), (59_999_999_999, "59.999999999 s"), (6 * 10**10, "1 min 0 s"), (-1, "-0.000000001 s")):
            self.assertEqual(tool.seconds(ns), said)
        self.assertEqual(tool.seconds(-(2**63)), "-153,722,867 min 16.854775808 s")


class Mistakes(unittest.TestCase):
    def fails(self, report, line, what):
        with self.assertRaises(tool.Mistake) as caught:
            tool.explained(report)
        self.assertEqual(caught.exception.line, line)
        self.assertIn(what, str(caught.exception))

    def test_the_line_at_fault(self):
        good = report_of(c3="2 5 4 2 1")
        self.fails("", 1, "no report")
        self.fails(good[:-1], 65, "no end")
        self.fails("refused 13\n", 1, "no refusal of holds'")
        self.fails("refused 14\nrefused 14\n", 2, "a line alone")
        self.fails("ok 0\n", 2, "0 lines follow")
        self.fails(good + "crew 64 0 0\n", 66, "65 lines follow")
        self.fails(good.replace("crew 5 ", "crew 6 "), 7, "the place of crew 5")
        self.fails(good.replace("crew 5 0 0", "crew 5 0"), 7, "no line of holds'")
        self.fails(good.replace("crew 5 0 0", "crew 5 0 00"), 7, "no line of holds'")
        self.fails(good.replace("crew 5 0 0", "crew 5 0 7"), 7, "one without them")
        self.fails(good.replace("crew 3 2 5 4 2 1", "crew 3 2 5"), 5, "one without them")
        self.fails(good.replace("2 5 4 2 1", "2 5 4 1 3"), 5, "is not the total")
        self.fails(good.replace("2 5 4 2 1", "2 5 4 2 2"), 5, "is not the total")
        self.fails(good.replace("2 5 4 2 1", "2 5 1 2 1"), 5, "below the mean")
        self.fails(good.replace("ok 2", "ok 3"), 1, "together")

    def test_names(self):
        self.assertEqual(tool.names_in("0 A B\n\n63  C \n", "names"), {0: "A B", 63: "C"})
        for text, line, what in (
            ("64 A\n", 1, "a crew's number"),
            ("0 A\n1\n", 2, "NUMBER NAME"),
            ("01 A\n", 1, "NUMBER NAME"),
            ("1 A\n2 B\n1 C\n", 3, "has a name already: A"),
        ):
            with self.assertRaises(tool.Mistake) as caught:
                tool.names_in(text, "names")
            self.assertEqual((caught.exception.line, caught.exception.file), (line, "names"))
            self.assertIn(what, str(caught.exception))


class Refusals(unittest.TestCase):
    BEFORE = b"3 1 5\n4 2 -7\n"

    def told(self, line, before=BEFORE, behind=b"\n3 3 3\nx\n", names=None):
        text = before + line + behind
        return tool.explained(ask(text), names, text, ask)

    def test_without_the_text(self):
        for number in (14, 15):
            said = tool.explained(f"refused {number}\n")
            self.assertIn(f"refused, {number}: ", said)
            self.assertIn("--of TEXT", said)

    def test_what_is_wrong_with_a_line(self):
        for line, what in (
            (b"", "the line is empty"),
            (b"1 2", "it has 2 fields"),
            (b"1 2 3 4", "it has 4 fields"),
            (b"1  2 3", "a space too many behind field 1"),
            (b" 1 2 3", "at its beginning"),
            (b"1 2 3 ", "at its end"),
            (b"1 2 ", "at its end"),
            (b"1\t2 3", "a tab stands at its byte 2"),
            (b"1 2 3\r", "a carriage return stands at its byte 6"),
            (b"1 2 +3", "a plus sign stands at its byte 5"),
            (b"1 2 3.5", "a point"),
            (b"a 2 3", "`a` stands at its byte 1"),
            (b"1 2 \xff", "the byte 255"),
            (b"01 2 3", "the crew 01 begins with a zero"),
            (b"1 00 3", "the round 00 begins with a zero"),
            (b"1 2 -03", "the hold -03 begins with a zero"),
            (b"1 2 -0", "the hold -0 is zero, which has no minus sign"),
            (b"1 2 -", "the hold - is no number"),
            (b"1 2 --3", "the hold --3 is no number"),
            (b"-1 2 3", "the crew -1 is no number: only a hold has a sign"),
            (b"64 2 3", "the crew 64 is above 63"),
            (b"1 4294967296 3", "the round 4294967296 is above 4294967295"),
            (b"1 2 9223372036854775808", "the hold 9223372036854775808 is above 9223372036854775807"),
            (b"1 2 -9223372036854775809", "is below -9223372036854775808"),
            (b"1 2 " + b"9" * 1000, "is above 9223372036854775807"),
        ):
            with self.subTest(line):
                for behind in (b"\n3 3 3\nx\n", b"\n") + (b"",) * bool(line):
                    said = self.told(line, behind=behind)
                    self.assertTrue(said.startswith("refused, 14: "), said)
                    self.assertIn("\nline 3: ", said)
                    self.assertIn(what, said)

    def test_a_total_too_far(self):
        said = self.told(b"3 9 9223372036854775803", names={3: "North"})
        self.assertIn("refused, 15: ", said)
        self.assertIn("line 3: `3 9 9223372036854775803`\n", said)
        self.assertIn("crew 3, North: the total of its 1 round before is 5 ns (0.000000005 s); ", said)
        self.assertIn("it would be 9223372036854775808 ns, 1 above 9223372036854775807\n", said)
        said = self.told(b"4 9 -9223372036854775808")
        self.assertIn("it would be -9223372036854775815 ns, 7 below -9223372036854775808\n", said)

    def test_a_line_too_many(self):
        self.assertEqual(tool.LINES, 100_000)
        with mock.patch.object(tool, "LINES", 1_000):
            said = self.told(b"9 9 9\n", before=b"1 2 3\n" * 1_000)
        self.assertIn("line 1,001: `9 9 9`\n  it is line 1,001, and a year has at most 1,000\n", said)

    def test_the_shortest_beginning(self):
        lines = [b"1 2 3"] * 50
        for at in range(50):
            text = b"\n".join([*lines[:at], b"no", *lines[at + 1 :], b"no"])
            self.assertEqual(tool.shortest_refused(text, ask), at + 1)

    def test_a_report_of_another_text(self):
        with self.assertRaises(tool.Mistake):
            tool.explained("refused 15\n", None, b"x\n", ask)

    def test_a_program_that_refuses_without_reason(self):
        for number in (14, 15):
            with self.assertRaises(tool.Mistake) as caught:
                tool.explained(f"refused {number}\n", None, b"1 2 3\n1 2 3\n", lambda text: f"refused {number}\n")
            self.assertEqual(caught.exception.line, 1)
            self.assertIn("no reason to", str(caught.exception))


class Command(unittest.TestCase):
    """The tool by its arguments: what it prints, or why it does not."""

    def setUp(self):
        folder = tempfile.TemporaryDirectory()
        self.addCleanup(folder.cleanup)
        self.root = pathlib.Path(folder.name)

    def file(self, name, text):
        (self.root / name).write_bytes(text)
        return str(self.root / name)

    def run_tool(self, *arguments, stdin=""):
        out = io.StringIO()
        with mock.patch.object(sys, "argv", ["explain_holds.py", *arguments]), mock.patch.object(sys, "stdin", io.StringIO(stdin)):
            with mock.patch.object(tool, "reported", lambda program, text: ask(text)), contextlib.redirect_stdout(out):
                tool.main()
        return out.getvalue()

    def test_a_report_from_a_file_or_standard_input(self):
        self.assertEqual(self.run_tool(stdin=YEAR), tool.explained(YEAR))
        self.assertEqual(self.run_tool(self.file("report", YEAR.encode())), tool.explained(YEAR))

    def test_a_text_alone(self):
        said = self.run_tool("--of", self.file("text", b"3 1 2\n64 1 2\n"), "--names", self.file("names", b"3 North\n"))
        self.assertIn("line 2: `64 1 2`\n  the crew 64 is above 63\n", said)

    def test_what_cannot_be_read_is_told(self):
        for arguments, what in (
            (["nowhere"], "explain_holds: [Errno 2]"),
            (["--names", self.file("names", b"x\n"), "nowhere"], "names:1: `x` is not"),
            ([self.file("short", b"ok\n")], "short:1: `ok` is no line"),
            ([self.file("long", b"ok " + b"9" * 5000 + b"\n")], "long:1: `ok 999"),
            ([self.file("bytes", b"\xff\n")], "bytes:1: this is no text"),
        ):
            with self.subTest(what), self.assertRaises(SystemExit) as caught:
                self.run_tool(*arguments)
            self.assertIn(what, str(caught.exception.code))

    def test_a_program_that_is_not_built(self):
        with self.assertRaises(tool.replay_plans.Bad) as caught:
            tool.reported(self.root / "holds", b"")
        self.assertIn("./holds builds it", str(caught.exception))


if __name__ == "__main__":
    unittest.main()
