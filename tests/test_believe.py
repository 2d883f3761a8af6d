"""docs/BELIEVE.md lists all that must be believed, and believe.py says what is missing."""

import contextlib
import io
import pathlib
import re
import sys
import tempfile
import unittest

sys.path.insert(0, str(pathlib.Path(__file__).parents[1] / "tools"))
import believe as tool  # noqa: E402

ROOT = pathlib.Path(__file__).parents[1]

SMALL = {
    "docs/BELIEVE.md": "| Read | Lines | For |\n|---|---|---|\n| `crates/search/specs` | 2 | the search |\n\n"
    "| Stands in | For | Theorem |\n|---|---|---|\n"
    "| `crates/lists/specs/Quick.antt` | the list | `quick-is-plain` of `crates/lists/proofs/Same.antt` |\n\n`lib.Dec`\n",
    "crates/search/specs/Lib.antt": "pub mod Search\n",
    "crates/search/specs/Search.antt": "-- The search.\nuse lib.Dec.{leb}\nuse Rattle.lists.specs.Quick.{quick}\n"
    "use Rattle.search.specs.declared.search.Found.{Found}\n\n-- It.\nabbrev pub sought : Found\nsought = quick\n",
    "crates/lists/specs/Quick.antt": "-- Quick.\nabbrev pub quick : N\nquick = one\n",
    "crates/lists/proofs/Same.antt": "pub quick-is-plain : quick ≡ plain\nquick-is-plain = refl\n",
    "crates/plan_exports/src/calls.rt": "ghost use Rattle.search.specs.Search.{sought};\n",
}


class Small(unittest.TestCase):
    def setUp(self):
        folder = tempfile.TemporaryDirectory()
        self.addCleanup(folder.cleanup)
        self.root = pathlib.Path(folder.name)
        for name, text in SMALL.items():
            self.write(name, text)

    def write(self, name, text):
        file = self.root / name
        file.parent.mkdir(parents=True, exist_ok=True)
        file.write_text(text, encoding="utf-8")

    def replaced(self, name, old, new):
        self.assertIn(old, SMALL[name])
        self.write(name, SMALL[name].replace(old, new))

    def said(self):
        return [str(fault) for fault in tool.Page(self.root).faults]

    def test_nothing_is_missing(self):
        self.assertEqual(self.said(), [])

    def test_a_definition_outside_the_list(self):
        self.replaced("docs/BELIEVE.md", "`crates/lists/specs/Quick.antt`", "`crates/lists/specs/Other.antt`")
        self.write("crates/lists/specs/Other.antt", "-- Other.\n")
        self.assertEqual(self.said(), [
            "crates/search/specs/Search.antt:3: crates/lists/specs/Quick.antt must be believed, and is not on the page"
        ])

    def test_a_definition_that_a_call_promises_by(self):
        self.write("crates/plan_exports/src/calls.rt", "ghost use Rattle.taking.specs.Plain.{leg};\n")
        self.assertEqual(self.said(), [
            "crates/plan_exports/src/calls.rt:1: crates/taking/specs/Plain.antt must be believed, and is not on the page"
        ])

    def test_a_definition_that_cites_a_proof(self):
        self.replaced("crates/search/specs/Search.antt", "Rattle.lists.specs.Quick", "Rattle.lists.proofs.Same")
        self.assertIn("crates/lists/proofs/Same.antt must be believed", self.said()[0])

    def test_a_library_of_the_kit(self):
        self.replaced("crates/search/specs/Search.antt", "lib.Dec", "lib.Fake")
        self.assertEqual(self.said(), [
            "crates/search/specs/Search.antt:2: `lib.Fake` of the kit must be believed, and is not on the page"
        ])

    def test_a_stand_in_without_its_theorem(self):
        self.replaced("crates/lists/proofs/Same.antt", "pub quick-is-plain :", "pub slow-is-plain :")
        self.assertEqual(self.said(), ["docs/BELIEVE.md:7: crates/lists/proofs/Same.antt has no theorem `quick-is-plain`"])

    def test_lines_are_counted(self):
        self.replaced("docs/BELIEVE.md", "| 2 |", "| 3 |")
        self.assertEqual(self.said(), ["docs/BELIEVE.md:3: `crates/search/specs` has 2 lines, and not 3"])
        self.assertEqual(tool.Page(self.root).with_counts(), SMALL["docs/BELIEVE.md"])

    def test_what_is_listed_is_there(self):
        self.replaced("docs/BELIEVE.md", "`crates/search/specs`", "`crates/gone/specs`")
        self.assertIn("docs/BELIEVE.md:3: crates/gone/specs is not there", self.said())

    def test_one_meaning_for_each_name(self):
        self.assertEqual(tool.meanings(self.root), [])
        self.write("crates/lists/specs/More.antt", "unfoldable pub sought : N\nsought = one\n\npub record Found : Type 0 where\n")
        self.assertEqual([str(fault) for fault in tool.meanings(self.root)], [
            "crates/search/specs/Search.antt:7: `sought` has another meaning in crates/lists/specs/More.antt"
        ])
        said = tool.meanings(self.root, frozenset(["Found"]))
        self.assertIn("crates/lists/specs/More.antt:4: `Found` is a name of lib.Ieee", map(str, said))


class Believe(unittest.TestCase):
    def test_the_house(self):
        out = io.StringIO()
        with contextlib.redirect_stdout(out):
            status = tool.main([])
        self.assertEqual(status, 0, out.getvalue())
        self.assertRegex(out.getvalue(), r"^believe: [1-9]\d{3} lines of definitions in \d+ files, \d stand-ins, nothing outside\n$")

    def test_the_kit_has_names(self):
        self.assertLessEqual({"add", "mul", "round", "of_bits"}, tool.names_of_the_kit())

    def test_what_is_cited_is_there(self):
        text = (ROOT / "docs" / "BELIEVE.md").read_text(encoding="utf-8")
        for name in re.findall(r"`((?:crates|tools|include|tests)/[^`]+)`", text):
            self.assertTrue((ROOT / name).exists(), name)
        for name in re.findall(r"\]\(([^)#]+)\)", text):
            self.assertTrue((ROOT / "docs" / name).exists(), name)


if __name__ == "__main__":
    unittest.main()
