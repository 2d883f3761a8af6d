"""refusals.py reads the faults of the edits, and says which of them the prover did not refuse where it should."""

import contextlib
import io
import pathlib
import sys
import tempfile
import unittest
from unittest import mock

sys.path.insert(0, str(pathlib.Path(__file__).parents[1] / "tools"))
import contracts  # noqa: E402
import faults  # noqa: E402
import refusals as tool  # noqa: E402

ROOT = pathlib.Path(__file__).parents[1]

EDIT = """# ends_swapped: a span goes from the earlier instant to the later
refused: time::TimePoint::since at sub_d, returns-then-d
file: src/time.rt
old: x - y
new: y - x

# sum_lost: the law of sums
refused: proofs/Sums.antt at plus_more
file: specs/Time.antt
old: plus x y
new: plus x x
"""

SINCE = "proofs/time/TimePoint/since/Answers.antt"
REFUSED = (
    f"./{SINCE}:31:11: error: `sub_d`: the two types differ\n"
    "  expected type `a` but `b`\n"
    f"./{SINCE}:40:51: error: `returns-then-d`: the two types first differ\n"
    f"./{SINCE}:52:46: error: 2 declarations that depend on `sub_d`, which was rejected, were not checked: so, and_so\n"
    "./proofs/Sums.antt:7:1: error: `plus_more`: no occurrence of the left endpoint\n"
    "./proofs/time/TimePoint/plus/Answers.antt:9:2: error: `returns`: `close` was not admitted (..), so this cannot be checked\n"
    "fn a::time::TimePoint::since: not proved\n"
)
WITHOUT_SINCE = "".join(line for line in REFUSED.splitlines(True) if SINCE not in line)
SOURCE = "// Times.\nimpl TimePoint {\n    // Since.\n    #[inline]\n    pub fn since(self) {\n        self.x - y\n    }\n}\n"


class Checks:
    """Checks that say what a test has them say, by an edit's name and a fault's."""

    def __init__(self, said):
        self.said_of, self.begun, self.asked = said, [], []

    def begin(self, crate):
        self.begun.append(crate)

    def said(self, crate, label, lines):
        self.asked.append((crate, label, lines))
        text = self.said_of.get(label)
        if text is None:
            raise OSError(f"{crate}/{label}: is not refused")
        return text


class Refusals(unittest.TestCase):
    def setUp(self):
        folder = tempfile.TemporaryDirectory()
        self.addCleanup(folder.cleanup)
        self.root = pathlib.Path(folder.name).resolve()
        self.write("crates.txt", "a:\n")
        self.write("crates/a/src/lib.rt", "// A.\npub mod time;\n")
        self.write("crates/a/src/time.rt", SOURCE)
        self.edit(EDIT)
        self.log(REFUSED)

    def write(self, name, text):
        path = self.root / name
        path.parent.mkdir(parents=True, exist_ok=True)
        path.write_text(text)

    def edit(self, text):
        self.write("crates/a/must-fail/code_1.edit", text)

    def log(self, text, **alone):
        """What is said of the edit, and of each of its faults by itself."""
        self.checks = Checks({"code_1": text} | {f"code_1.{label}": said for label, said in alone.items()})

    def said(self, *more):
        told = io.StringIO()
        with contextlib.redirect_stdout(told), mock.patch.object(tool, "Checks", lambda root: self.checks):
            status = tool.main([str(self.root), *more])
        return status, told.getvalue()

    def assert_fault(self, line, text):
        status, told = self.said()
        self.assertEqual(status, 1)
        self.assertIn(f"crates/a/must-fail/code_1.edit:{line}: {text}", told)
        return told

    def test_a_conversion_goes_by_both_of_its_types(self):
        with tempfile.TemporaryDirectory() as folder:
            crate = pathlib.Path(folder)
            (crate / "src").mkdir()
            text = "// A.\nimpl Time {\n    fn since(self) {\n    }\n}\nimpl From<Why> for u64 {\n    fn from(why: Why) -> u64 {\n        1\n    }\n}\n"
            (crate / "src" / "lib.rt").write_text(text)
            self.assertEqual(tool.function_at(crate, "src/lib.rt", 8), "U64FromWhy::from")
            self.assertEqual(tool.function_at(crate, "src/lib.rt", 3), "Time::since")

    def test_each_is_refused_in_its_proof(self):
        status, told = self.said()
        self.assertEqual(status, 0, told)
        self.assertIn("2 faults in 1 edits", told)
        self.assertEqual(self.checks.begun, ["a"])
        lines = "file: src/time.rt,old: x - y,new: y - x,file: specs/Time.antt,old: plus x y,new: plus x x".split(",")
        self.assertEqual(self.checks.asked, [("a", "code_1", lines)])

    def test_a_fault_that_is_not_refused(self):
        text = REFUSED.replace("error: `plus_more`", "note: `plus_more`")
        self.log(text, sum_lost=text)
        self.assert_fault(7, "`sum_lost` is not refused at `plus_more` of `proofs/Sums.antt`")

    def test_a_fault_in_the_way_of_another(self):
        # the law is not reached, and is refused once its fault is tried by itself
        text = REFUSED.replace("error: `plus_more`: no occurrence", "error: 1 declaration that depends on `x`, which was rejected,")
        self.log(text, sum_lost="./proofs/Sums.antt:7:1: error: `plus_more`: no\n")
        self.assertEqual(self.said()[0], 0)
        self.assertEqual([label for _, label, _ in self.checks.asked], ["code_1", "code_1.sum_lost"])
        self.assertEqual(self.checks.asked[1][2], ["file: specs/Time.antt", "old: plus x y", "new: plus x x"])
        self.log(text, sum_lost="./proofs/Sums.antt:7:1: error: `plus_less`: no\n")
        told = self.assert_fault(7, "`sum_lost` is not refused at `plus_more` of `proofs/Sums.antt`")
        self.assertIn("`plus_less` of `proofs/Sums.antt` is refused, and no fault names it", told)
        self.log(text)
        self.assert_fault(1, "a/code_1.sum_lost: is not refused")

    def test_a_proof_that_only_rests_on_another(self):
        for why in ("`x` was not admitted (..), so this cannot be checked", "1 declaration that depends on `x`, which was rejected, was"):
            self.log(REFUSED.replace("the two types differ", why), ends_swapped=WITHOUT_SINCE)
            self.assert_fault(1, "`ends_swapped` is not refused at `sub_d` of `time::TimePoint::since`")

    def test_another_fact(self):
        text = REFUSED.replace("error: `sub_d`", "error: `returns`")
        self.log(text, ends_swapped=text)
        told = self.assert_fault(1, "`ends_swapped` is not refused at `sub_d` of `time::TimePoint::since`")
        self.assertIn("`returns` of `time::TimePoint::since` is refused, and no fault names it", told)

    def test_a_proof_that_no_longer_fits(self):
        for text in ("record `S` has no field `before`", "module `Goals` has no `returns-then-d`", "`before` is not in scope"):
            log = "".join(f"./{SINCE}:31:11: error: `{name}`: {text}\n" for name in ("sub_d", "returns-then-d"))
            self.log(WITHOUT_SINCE + log, ends_swapped=log)
            told = self.assert_fault(1, "a fault changes the shape of the code: `sub_d` of `time::TimePoint::since` does not fit it")
            self.assertIn("`ends_swapped` is not refused at `sub_d`", told)

    def test_a_goal_that_the_fault_gives_another_name(self):
        gone = f"./{SINCE}:40:51: error: `returns-then-d`: module `Goals` has no `returns-then-d`\n"
        new = "note: src/time.rt:6:9: it is not proved that what the function ensures holds when it returns (`returns-then-e`); so\n"
        kept = "".join(line for line in REFUSED.splitlines(True) if "returns-then-d" not in line)
        self.log(kept + gone + new)
        self.assertEqual(self.said(), (0, self.said()[1]))
        # without the new one, or in another proof, nothing is refused there
        self.log(WITHOUT_SINCE + gone, ends_swapped=gone)
        self.assert_fault(1, "`ends_swapped` is not refused at `returns-then-d` of `time::TimePoint::since`")

    def test_a_refusal_that_no_fault_names(self):
        self.log(REFUSED + "./proofs/Other.antt:3:1: error: `more`: no\n")
        told = self.assert_fault(1, "`more` of `proofs/Other.antt` is refused, and no fault names it")
        self.assertEqual(told.count("\n"), 1)

    def test_a_refusal_without_a_name(self):
        self.log(REFUSED + "./proofs/Other.antt:3:1: error: no such module\n")
        self.assert_fault(1, "`a line` of `proofs/Other.antt` is refused, and no fault names it")

    def test_a_function_without_a_proof_file(self):
        text = "fn a::time::TimePoint::since: no proof: expected answers in y; `search` did not prove `sub_d` and `returns-then-d`"
        text += "; it calls `a::time::plus`, which is not proved\n"
        self.log(WITHOUT_SINCE + text)
        self.assertEqual(self.said()[0], 0)

    def test_a_goal_that_is_left_to_the_search(self):
        note = "note: src/time.rt:{}:5: it is not proved that the sum does not wrap (`{}`); `search` gave up at one of its limits\n"
        # a place is that of an attribute, or in the body
        self.log(WITHOUT_SINCE + note.format(4, "sub_d") + note.format(6, "returns-then-d"))
        self.assertEqual(self.said()[0], 0)

    def test_a_goal_of_functions_that_call_one_another(self):
        self.edit(EDIT.replace("time::TimePoint::since at sub_d, returns-then-d", "time::+ring at more-sub_d"))
        self.write("crates/a/src/time.rt", SOURCE.replace("pub fn", "fn") + "\nfn more() {\n}\n")
        note = "note: src/time.rt:10:1: it is not proved that the sum does not wrap (`more-sub_d`); `search` gave up\n"
        self.log(WITHOUT_SINCE + note, ends_swapped=note)
        self.assert_fault(1, "`ends_swapped` is not refused at `more-sub_d` of `time::+ring`")
        self.write("crates/a/proofs/time/+ring/Answers.antt", "pub more-returns : goal.more-returns\n")
        self.assertEqual(self.said()[0], 0, self.said()[1])

    def test_an_edit_that_is_not_refused(self):
        self.log(None)
        self.assert_fault(1, "a/code_1: is not refused")

    def test_the_edits_of_one_crate(self):
        self.write("crates/b/must-fail/code_2.edit", EDIT.replace("time::TimePoint::since", "b"))
        self.assertIn("2 faults in 1 edits", self.said("--crate", "a")[1])
        self.assertEqual(self.said("--crate", "a", "--crate", "b")[0], 1)

    def first(self, text):
        self.write("log", f"rt: a: trying its must-fail edits (1)\nrt: must-fail a/code_1.edit: {text}\nrt: ok\n")
        return self.said("--said", str(self.root / "log"))

    def test_the_first_error_of_each_edit(self):
        for line in REFUSED.splitlines()[0], REFUSED.splitlines()[4]:
            self.assertEqual(self.first(f"refused, as it must be: {line[:60]}")[0], 0)
        self.assertEqual(self.checks.asked, [])
        for text, why in (
            ("refused, as it must be: ./proofs/Other.antt:3:1: error: `more`: no", "`more` of `proofs/Other.antt` is refused first"),
            (f"refused, as it must be: ./{SINCE}:3:1: error: `sub_d`: has no field `x`", "a fault changes the shape of the code"),
            ("refused, as it must be (only because a proof file names what the edit took away): x", "is not refused at a fact"),
            ("refused, as it must be (only by a limit of the prover): x", "is not refused at a fact"),
            ("NOT REFUSED: the crate is still proved", "is not refused at a fact"),
            ("BAD EDIT: it changes nothing", "is not refused at a fact"),
        ):
            with self.subTest(text):
                status, told = self.first(text)
                self.assertEqual(status, 1)
                self.assertIn(why, told)
        self.write("log", "rt: ok\n")
        self.assertIn("nothing is said of it", self.said("--said", str(self.root / "log"))[1])

    def test_a_first_error_at_a_goal_that_the_fault_gives_another_name(self):
        new = f"refused, as it must be: ./{SINCE}:3:1: error: `returns-then-e`: no"
        self.write(f"crates/a/{SINCE}", "pub returns-then-d : goal.returns-then-d\n")
        self.assertEqual(self.first(new)[0], 0)
        self.write(f"crates/a/{SINCE}", "pub returns-then-e : goal.returns-then-e\n")
        self.assertIn("`returns-then-e` of `time::TimePoint::since` is refused first", self.first(new)[1])

    def test_the_form_of_an_edit(self):
        for old, new, line, text in (
            ("# ends_swapped: a span", "# a span", 1, "stands before the first fault"),
            ("refused: proofs/Sums.antt at plus_more\n", "", 7, "`sum_lost` does not say where it is refused"),
            ("old: x - y\n", "", 1, "`ends_swapped` needs `file:`, `old:` and `new:`"),
            ("file: specs/Time.antt\n", "", 7, "`sum_lost` needs `file:`, `old:` and `new:`"),
            ("refused: proofs", "refuse: proofs", 8, "is no line of a fault"),
            ("proofs/Sums.antt at plus_more", "time::TimePoint::since at sub_d", 1, "`sub_d` of `time::TimePoint::since` is named twice"),
            ("# sum_lost", "# ends_swapped", 7, "`ends_swapped` is also a fault of"),
            (EDIT, "", 1, "has no fault"),
        ):
            with self.subTest(text):
                self.edit(EDIT.replace(old, new, 1))
                self.assert_fault(line, text)

    def test_a_public_function_without_a_fault(self):
        self.write("crates/a/src/time.rt", "// Times.\nimpl TimePoint {\n    pub fn since(self) {\n    }\n}\npub fn more() {\n}\n")
        lone = "crates/a/src/time.rt:6: there is no fault for `a::time::more`, which is public\n"
        self.assertEqual(self.said("--form"), (1, lone))
        with mock.patch.dict(tool.ELSEWHERE, {"a::time::more": "it does nothing"}):
            self.assertEqual(self.said("--form"), (0, "refusals: 2 faults in 1 edits\n"))
        with mock.patch.dict(tool.ELSEWHERE, {"a::time::TimePoint::since": "it has one"}):
            self.assertIn("there is a fault for `a::time::TimePoint::since`, and a reason", self.said("--form")[1])

    def test_a_conversion_owes_a_fault_and_a_derived_comparison_none(self):
        own = "#[derive(Clone, Copy, PartialEq)]\npub struct Why;\nimpl From<Why> for u64 {\n    fn from(w: Why) -> u64 {\n    }\n}\n"
        self.write("crates/a/src/time.rt", SOURCE + own)
        lone = "crates/a/src/time.rt:12: there is no fault for `a::time::U64FromWhy::from`, which is public\n"
        self.assertEqual(self.said("--form"), (1, lone))

    def test_the_functions_without_a_fault_are_there(self):
        self.assertLessEqual(tool.ELSEWHERE.keys(), {contract.name for contract in contracts.Contracts(ROOT).all})

    def test_the_form_needs_no_check(self):
        self.log("")
        self.assertEqual(self.said("--form"), (0, "refusals: 2 faults in 1 edits\n"))

    def test_each_fault_apart(self):
        folder = self.root / "apart"
        self.assertEqual(self.said("--apart", str(folder))[0], 0)
        self.assertEqual((folder / "crates.txt").read_text(), "a:\n")
        self.assertTrue((folder / "crates/a/src/lib.rt").is_file())
        edits, found = faults.read_all(folder)
        self.assertEqual(found, [])
        self.assertEqual([path.stem for path in edits], ["ends_swapped", "sum_lost"])
        self.assertEqual("\n\n".join(path.read_text().strip() for path in edits) + "\n", EDIT)

    def test_a_folder_that_is_there_already(self):
        with self.assertRaises(SystemExit), contextlib.redirect_stderr(io.StringIO()):
            self.said("--apart", str(self.root))


if __name__ == "__main__":
    unittest.main()
