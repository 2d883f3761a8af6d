"""contracts.py writes a theorem for each public function, and says where one is missing."""

import contextlib
import io
import json
import pathlib
import sys
import tempfile
import unittest

sys.path.insert(0, str(pathlib.Path(__file__).parents[1] / "tools"))
import contracts as tool  # noqa: E402

ROOT = pathlib.Path(__file__).parents[1]

CRATES = "## all\nsettling:\nlists:\n\ncontracts: settling lists\nplan: settling lists\n"
HOUSE = {
    "crates.txt": CRATES,
    "crates/settling/src/lib.rt": "// The claim.\n",
    "crates/lists/src/lib.rt": "// Lists.\npub mod words;\n",
    "crates/lists/src/words.rt": "// Words.\npub fn hand_over(out: &mut [u64]) -> u64\n    ensures { result ≡ 1 }\n{}\n\n"
    "fn own() {}\n\nimpl Word {\n    pub fn of_two(self) -> u64\n        ensures one { result ≡ 1 }\n"
    "        ensures two { result ≡ 1 }\n    {\n        1\n    }\n}\n",
    "crates/plan/src/main.rt": "// A program.\npub fn reply() -> u64\n    ensures { result ≡ 1 }\n{\n    1\n}\n",
    "crates/contracts/src/lib.rt": "// Theorems.\n",
}
PUBLIC = ["lists::words::hand_over", "lists::words::Word::of_two"]
WHY = "crates/lists/src/why.rt"
CONVERTED = """// Why.
#[derive(Clone, Copy, PartialEq, Eq, PartialOrd, Ord)]
pub enum Why {
    Short,
}

impl From<Why> for u64 {
    ghost from_gives = { λ why n. n ≡ 1 };

    fn from(why: Why) -> u64 {
        1
    }
}
"""


class Contracts(unittest.TestCase):
    def setUp(self):
        folder = tempfile.TemporaryDirectory()
        self.addCleanup(folder.cleanup)
        self.root = pathlib.Path(folder.name)
        for name, text in HOUSE.items():
            self.write(name, text)
        for name in ("docs", "crates/contracts/proofs", "crates/plan/proofs"):
            (self.root / name).mkdir()
        self.proved("lists", PUBLIC)
        for crate in ("settling", "contracts"):
            self.proved(crate, [])

    def write(self, name, text):
        file = self.root / name
        file.parent.mkdir(parents=True, exist_ok=True)
        file.write_text(text, encoding="utf-8")

    def proved(self, crate, public):
        """What the toolchain says of a crate once it is proved."""
        self.write(f"crates/{crate}/out/rlib/{crate}.rlib/interface/toolchain/mir.json", json.dumps([[name, {}] for name in public]))

    def said(self, *arguments):
        out = io.StringIO()
        with contextlib.redirect_stdout(out):
            status = tool.main([*arguments, "--root", str(self.root)])
        return status, out.getvalue().splitlines()

    def test_each_function_has_a_theorem(self):
        self.assertEqual(self.said(), (0, ["no second answer: 3 functions of 2 crates, a theorem for each"]))
        text = (self.root / "crates/contracts/proofs/lists.antt").read_text(encoding="utf-8")
        self.assertIn("use Rattle.lists.proofs.words.Word.of_two.Met as words_word_of_two_met\n", text)
        self.assertIn("Determined words_hand_over_symbol.code words_hand_over_symbol.name words_hand_over.ended (λ M 𝓤. words_hand_over.clauses)\n", text)
        self.assertIn("by_clause 𝓤 words_hand_over.ended", text)
        self.assertIn("by_clauses 𝓤 words_word_of_two.ended", text)
        own = (self.root / "crates/plan/proofs/Public.antt").read_text(encoding="utf-8")
        self.assertIn("use Rattle.plan.specs.contracts.reply as reply\n", own)
        self.assertEqual(self.said("--check")[0], 0)
        self.assertEqual(self.said("--built")[0], 0)

    def test_no_clause_is_in_a_theorem(self):
        self.said()
        for file in (self.root / "crates/contracts/proofs").glob("*.antt"):
            self.assertNotIn("≡", file.read_text(encoding="utf-8"))

    def test_a_theorem_that_is_changed_or_gone(self):
        self.said()
        changed = "crates/contracts/proofs/lists.antt"
        self.write(changed, "-- Changed.\n")
        self.assertEqual(self.said("--check"), (1, [f"{changed}:1: not what the sources say: run tools/contracts.py"]))
        (self.root / changed).unlink()
        self.assertEqual(self.said("--check")[0], 1)

    def test_what_the_toolchain_calls_public(self):
        self.said()
        self.proved("lists", [*PUBLIC, "lists::words::hidden_from_the_text"])
        text = "`lists::words::hidden_from_the_text` is public, and there is no theorem on it"
        self.assertEqual(self.said("--built"), (1, [f"{tool.LIST}:1: {text}"]))
        self.proved("lists", PUBLIC[:1])
        self.assertIn("is not among what the toolchain says is public", self.said("--built")[1][0])
        (self.root / "crates/lists/out/rlib/lists.rlib/interface/toolchain/mir.json").unlink()
        self.assertIn("`lists` is not proved", self.said("--built")[1][0])

    def test_what_c_links_has_theorems_of_its_own(self):
        self.write("crates.txt", CRATES + "lists_c staticlib: settling lists\n")
        self.write("crates/lists_c/src/lib.rt", "// For C.\npub fn count() -> u64\n    ensures { result ≡ 1 }\n{\n    1\n}\n")
        (self.root / "crates/lists_c/proofs").mkdir()
        self.assertEqual(self.said()[0], 0)
        own = (self.root / "crates/lists_c/proofs/Public.antt").read_text(encoding="utf-8")
        self.assertIn("pub count_determined :\n", own)
        self.assertNotIn("lists_c", (self.root / tool.LIST).read_text(encoding="utf-8"))
        self.assertEqual(self.said("--built")[0], 0)

    def test_nothing_promised(self):
        self.write("crates/lists/src/words.rt", "// Words.\npub fn open() -> u64 {\n    1\n}\n")
        text = "`lists::words::open` promises by 0 clauses, and there is no lemma for so many"
        self.assertEqual(self.said(), (1, [f"crates/lists/src/words.rt:2: {text}"]))

    def test_crates_stand_where_theorems_can(self):
        self.write("crates.txt", CRATES.replace("plan: settling lists", "plan: lists"))
        text = "`plan` does not depend on `settling`, so it can have no theorems"
        self.assertEqual(self.said(), (1, [f"crates.txt:6: {text}"]))
        self.write("crates.txt", CRATES.replace("contracts: settling lists\n", ""))
        self.assertIn("`contracts` is not listed, so there are no theorems", self.said()[1][0])

    def test_what_the_theorems_depend_on_is_written(self):
        self.write("crates.txt", CRATES.replace("contracts: settling lists", "contracts:"))
        text = "not what the sources say: run tools/contracts.py"
        self.said()
        self.assertEqual((self.root / "crates.txt").read_text(encoding="utf-8"), CRATES)
        self.write("crates.txt", CRATES.replace("contracts: settling lists", "contracts: settling"))
        self.assertEqual(self.said("--check"), (1, [f"crates.txt:1: {text}"]))

    def test_the_list_of_theorems(self):
        listed = self.said("--list")[1]
        self.assertEqual(len(listed), 3)
        self.assertIn("plan::reply: reply_determined of crates/plan/proofs/Public.antt", listed)

    def test_a_file_of_no_crate(self):
        self.write("crates/contracts/proofs/gone.antt", "-- Nothing.\n")
        self.assertIn("states theorems of no crate", self.said()[1][0])

    def test_methods_of_traits_have_theorems(self):
        """A conversion, and the comparisons that a type derives: the toolchain names them by their impls."""
        self.write(WHY, CONVERTED)
        made = ["U64FromWhy::from", "WhyPartialEq::eq", "WhyPartialOrd::partial_cmp", "WhyOrd::cmp"]
        self.proved("lists", [*PUBLIC, *(f"lists::why::{name}" for name in made)])
        self.assertEqual(self.said(), (0, ["no second answer: 7 functions of 2 crates, a theorem for each"]))
        text = (self.root / "crates/contracts/proofs/lists.antt").read_text(encoding="utf-8")
        self.assertIn("use Rattle.lists.specs.contracts.why.U64FromWhy.from as why_u64_from_why_from\n", text)
        self.assertIn("by_clause 𝓤 why_why_partial_ord_partial_cmp.ended", text)
        self.assertEqual(self.said("--check")[0], 0)
        self.assertEqual(self.said("--built")[0], 0)
        self.assertEqual(len(self.said("--list")[1]), 7)
        self.write(WHY, CONVERTED.replace(", Ord", ""))
        self.said()
        told = f"{tool.LIST}:1: `lists::why::WhyOrd::cmp` is public, and there is no theorem on it"
        self.assertEqual(self.said("--built"), (1, [told]))

    def test_a_derived_trait_that_leaves_its_answer_open(self):
        self.write(WHY, CONVERTED.replace("Clone, Copy", "Clone, Copy, Debug"))
        told = f"{WHY}:2: derives `Debug`, and it is not known that its contracts settle an answer"
        self.assertEqual(self.said(), (1, [told]))

    def test_the_house(self):
        contracts = tool.check(ROOT)
        self.assertEqual(contracts.faults, [])
        self.assertGreater(len(contracts.all), 200)


if __name__ == "__main__":
    unittest.main()
