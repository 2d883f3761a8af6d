"""landing.py tells what moved between two commits of a small repository, and leaves a place for each sentence."""

import contextlib
import io
import os
import pathlib
import subprocess
import sys
import tempfile
import unittest

sys.path.insert(0, str(pathlib.Path(__file__).parents[1] / "tools"))
import landing as tool  # noqa: E402

WHO = {f"GIT_{role}_{what}": f"{role}@example.org" for role in ("AUTHOR", "COMMITTER") for what in ("NAME", "EMAIL")}
BASE = {
    "crates/a/specs/A.antt": "-- One.\nuse lib.N.{N, zero}\n\n-- The first.\nunfoldable pub one : N\none = zero\n\n"
    "-- The second.\npub record Two : Type where\n  pub left : N\n  pub right : N\n",
    "crates/a/src/lib.rt": "// A.\nuse lists::rows::Row;\nghost use Rattle.a.specs.A.{one};\n\n"
    "pub struct Leg {\n    row: Row,\n}\n\n"
    "impl Leg {\n    // Goes.\n    pub fn go(self) -> u64\n        ensures { result ≡ one }\n    {\n"
    "        1\n    }\n}\n\n"
    "fn hidden() -> u64\n    ensures { result ≡ one }\n{\n    1\n}\n",
    "crates/a/proofs/Laws.antt": "-- Laws.\nuse lib.N.{N}\n\n-- It is so.\npub so : N → one ≡ one\nso n = refl\n",
    "crates/a/proofs/lib/Leg/go/Answers.antt": "-- go.\nproof = refl\n",
    "crates/b/specs/B.antt": "-- B.\n\npub three : N\nthree = 3\n",
    "docs/RULES.md": "# Rules\n",
}
LOG = """== the gate took {gate} s
rt: a proved
rt: ok; handles allowed: none; must-fail edits: 4 refused; {share}
9 passed, 0 failed
"""


class Landing(unittest.TestCase):
    def setUp(self):
        folder = tempfile.TemporaryDirectory()
        self.addCleanup(folder.cleanup)
        self.root = pathlib.Path(folder.name)
        self.git("init", "-q", "-b", "main")
        for name, text in BASE.items():
            self.write(name, text)
        self.commit()
        self.git("tag", "base")

    def git(self, *words):
        env = os.environ | WHO | {"GIT_CONFIG_GLOBAL": os.devnull}
        return subprocess.run(["git", *words], cwd=self.root, env=env, check=True, capture_output=True, text=True).stdout

    def write(self, name, text):
        file = self.root / name
        file.parent.mkdir(parents=True, exist_ok=True)
        file.write_text(text, encoding="utf-8")

    def edit(self, name, old, new):
        text = (self.root / name).read_text(encoding="utf-8")
        self.assertIn(old, text)
        self.write(name, text.replace(old, new))

    def commit(self):
        self.git("add", "-A")
        self.git("commit", "-q", "--allow-empty", "-m", "a step")

    def run_tool(self, *arguments):
        out = io.StringIO()
        with contextlib.redirect_stdout(out):
            status = tool.main(["--root", str(self.root), *arguments])
        return status, out.getvalue()

    def note(self, *arguments):
        self.commit()
        self.assertEqual(self.run_tool("W2", "--base", "base", *arguments)[0], 0)
        return (self.root / "docs/landings/W2.md").read_text(encoding="utf-8")

    def test_nothing_moved(self):
        note = self.note()
        self.assertNotIn("| Crate |", note)
        self.assertEqual(note.count("None moved."), 4)
        self.assertIn("4 definitions, 1 promises, 1 laws, 1 proofs of functions are as they were.", note)
        self.assertIn("Crates in which nothing moved: a, b.", note)

    def test_comments_and_layout_do_not_count(self):
        self.edit("crates/a/specs/A.antt", "-- The first.", "-- The very first.")
        self.edit("crates/a/src/lib.rt", "// Goes.", "// It goes.")
        self.edit("crates/a/proofs/lib/Leg/go/Answers.antt", "proof = refl", "proof =\n    refl  -- so")
        self.assertEqual(self.note().count("None moved."), 4)

    def test_a_definition(self):
        self.edit("crates/a/specs/A.antt", "one = zero", "one = zero + zero")
        self.edit("crates/a/specs/A.antt", "  pub right : N\n", "  pub right : zero\n\npub more : N\nmore = one\n")
        self.edit("crates/a/src/lib.rt", "row: Row", "rows: Row")
        self.git("rm", "-q", "crates/b/specs/B.antt")
        note = self.note()
        self.assertIn("| a | +1 ~3 |  |  |  |\n| b | -1 |  |  |  |\n", note)
        self.assertIn("- a: added `A.more`; changed `A.Two`, `A.one`, `lib::Leg`\n- b: removed `B.three`\n", note)
        self.assertIn(tool.PLACES["definitions"], note)
        self.assertNotIn(tool.PLACES["promises"], note)

    def test_a_promise_and_not_a_body(self):
        contract = "    ensures { result ≡ one }"
        self.edit("crates/a/src/lib.rt", "    {\n        1\n", "    {\n        2\n")
        self.edit("crates/a/src/lib.rt", f"fn hidden() -> u64\n{contract}", "fn hidden() -> u64\n    ensures { ⊤ }")
        self.assertEqual(self.note().count("None moved."), 4)
        (self.root / "docs/landings/W2.md").unlink()
        weaker = "go(self) -> u64\n        ensures { ⊤ }"
        self.edit("crates/a/src/lib.rt", f"go(self) -> u64\n    {contract}", weaker)
        self.assertIn("- a: changed `lib::Leg::go`\n", self.note())

    def test_a_law_by_what_it_states(self):
        self.edit("crates/a/proofs/Laws.antt", "so n = refl", "so n = trans refl refl")
        self.edit("crates/a/proofs/lib/Leg/go/Answers.antt", "refl", "trans")
        note = self.note()
        self.assertIn("| a |  |  |  | ~1 |\n", note)
        self.assertIn("- a: changed `lib::Leg::go`\n", note)
        (self.root / "docs/landings/W2.md").unlink()
        self.edit("crates/a/proofs/Laws.antt", "one ≡ one", "one ≡ zero")
        self.assertIn("- a: changed `Laws.so`\n", self.note())

    def test_a_name_from_elsewhere(self):
        self.edit("crates/a/specs/A.antt", "use lib.N.{N, zero}", "use lib.N.{N}\nuse lib.M.{zero}")
        note = self.note()
        self.assertIn("| a | @1 |  |  |  |\n", note)
        self.assertIn("- a: with a name from elsewhere: `A.one`\n", note)

    def test_a_definition_that_moves_house(self):
        self.write("crates/c/specs/B.antt", "-- C.\n\n-- As it was.\npub three : N\nthree = 3\n")
        self.git("rm", "-q", "crates/b/specs/B.antt")
        note = self.note()
        self.assertIn("| c | >1 |  |  |  |\n", note)
        self.assertIn("- c: from b: `B.three`\n", note)
        self.assertNotIn("removed", note)

    def test_times(self):
        some = "done in this run: 2 of the 5 proofs (of crates and of their tests); the others are kept from earlier runs"
        self.write("before.log", LOG.format(gate=900, share="every proof and must-fail edit was done in this run"))
        self.write("after.log", LOG.format(gate=95, share=some))
        logs = ("--before", str(self.root / "before.log"), "--after", str(self.root / "after.log"))
        note = self.note(*logs)
        self.assertIn("| the gate, by the clock | 900 s | 95 s |\n", note)
        self.assertIn(f"| of which | every proof and must-fail edit was done in this run | {some} |\n", note)

    def test_times_that_no_log_tells(self):
        self.write("a.log", "rt: a proved\n== the gate took 7 s\n")
        note = self.note("--after", str(self.root / "a.log"))
        place = "[say: what the log told, or not measured]"
        self.assertIn(f"| the gate, by the clock | {place} | 7 s |\n", note)
        self.assertIn(f"| of which | {place} | {place} |\n", note)

    def test_the_invariants_of_a_function(self):
        self.write("crates/a/proofs/lib/Leg/go/Invariants.antt", "-- go.\ninvariant = one\n")
        self.assertIn("- a: added `lib::Leg::go (loops)`\n", self.note())

    def test_a_note_is_not_written_over(self):
        self.note()
        with self.assertRaisesRegex(SystemExit, "W2.md is there already"):
            self.run_tool("W2", "--base", "base")

    def test_what_cannot_be_read_is_told(self):
        for why, arguments in {
            "nowhere is no commit": ("W2", "--base", "nowhere"),
            "is no name for a note": ("../W2", "--base", "base"),
            "No such file": ("W2", "--base", "base", "--before", str(self.root / "missing.log")),
        }.items():
            with self.assertRaisesRegex(SystemExit, f"^landing: .*{why}"):
                self.run_tool(*arguments)
        self.assertFalse((self.root / "docs/landings").exists())

    def test_bad_usage(self):
        for arguments in (["W2"], ["--base", "base"], ["W2", "--check"]):
            with self.assertRaises(SystemExit) as ended, contextlib.redirect_stderr(io.StringIO()):
                self.run_tool(*arguments)
            self.assertEqual(ended.exception.code, 2)

    def test_an_empty_place_is_a_fault(self):
        self.write("docs/landings/README.md", "A place is `[say: ..]`.\n")
        self.assertEqual(self.run_tool("--check"), (0, "landings: 0 notes, none with an empty place\n"))
        self.write("docs/landings/W1.md", "# W1: roots\n\nIt adds roots.\n")
        self.assertEqual(self.run_tool("--check"), (0, "landings: 1 notes, none with an empty place\n"))
        self.write("docs/landings/W2.md", "# W2: [say: what]\n")
        self.assertEqual(self.run_tool("--check"), (1, "docs/landings/W2.md:1: is still empty: [say: what]\n"))


if __name__ == "__main__":
    unittest.main()
