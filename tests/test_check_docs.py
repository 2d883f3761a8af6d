"""Small trees that tools/check_docs.py must pass or catch."""

import contextlib
import io
import sys
import tempfile
import unittest
from pathlib import Path

sys.path.insert(0, str(Path(__file__).resolve().parent.parent / "tools"))
import check_docs  # noqa: E402
import coverage  # noqa: E402

RULES = """# The rules

**D1 Ends.** Every call ends (rule 1.2).

| Part | What holds |
|---|---|
| D1a | in time |

## 1 First

**1.1 One.** As rule 2.1 says.

**1.2 Two.** See rules 1.1 and 2.2.

```
**9.9 No rule.** In a fenced block.
```

## 2 Second

| Rule | Name | Allowed |
|---|---|---|
| 2.1 | time | 0 to 10 |
| 2.2 | place | 0.5 or less |
"""

HEAD = "| Rule | What | Defined | Proved | Run |\n|---|---|---|---|---|\n"
# 1.1 has no row: all that covers it is derived
ROWS = {
    "1.2": "| 1.2 | two | `crates/a/specs/A.antt` `two_halves` | as cited | as cited |",
    "2.1": "| 2.1 | time | open | by form | by reading |",
    "2.2": "| 2.2 | place | the sum alone; the rest open | by form | by reading |",
    "D1": "| D1 | ends | by form | by form | by form |",
    "D1a": "| D1a | in time | by form | by form | by form |",
}
ANTT = """-- The numbers (RULES, section 1).
-- Assumes nothing.
use lib.Nat

-- One (RULES 1.1).
pub one : N
one = 1

-- Two halves.
pub two_halves : N
two_halves = one
"""
LAWS = "-- Laws.\n\n-- It is itself (RULES 1.1).\npub itself : one ≡ one\nitself = refl\n  where\n  inner : N\n"
DIFFERENCES = "| No. | When | Run by |\n|---|---|---|\n| 1 | ever | `it_differs` |\n"
TEST = "#[test]\nfn it_differs() {}\n"
CODE = """// Gives (docs/RULES.md, section 2).
ghost use Rattle.a.specs.A.{one, two_halves};

// What is given.
pub fn give() -> u64
    ensures { result ≡ one }
{
    1
}

#[unsafe(no_mangle)]
pub extern "C" fn igelbert_give() -> u64
    ensures { result ≡ two_halves }
{
    give()
}
"""
EDIT = "# none_given: one is given\nrefused: give at returns\nfile: src/lib.rt\nold: 1\nnew: 0\n"
PROVED = "extern \"C\" {\n    fn igelbert_give() -> u64;\n}\npub fn given() -> u64 {\n    unsafe { igelbert_give() }\n}\n"
LAYER = "//! What is given.\npub fn compare() {\n    proved::given();\n}\n"


class CheckDocs(unittest.TestCase):
    def setUp(self):
        folder = tempfile.TemporaryDirectory()
        self.addCleanup(folder.cleanup)
        self.root = Path(folder.name)
        self.write("docs/RULES.md", RULES)
        self.cover(ROWS)
        self.write("crates.txt", "## low\na:\n")
        self.write("crates/a/specs/A.antt", ANTT)
        self.write("crates/a/proofs/Laws.antt", LAWS)
        self.write("crates/a/src/lib.rt", CODE)
        self.write("crates/a/must-fail/faults_1.edit", EDIT)
        self.write("oracle/compare/src/proved.rs", PROVED)
        self.write("oracle/compare/src/layers/gives.rs", LAYER)
        self.write("docs/DIFFERENCES.md", DIFFERENCES)
        self.write("oracle/planner/tests/t.rs", TEST)

    def write(self, name, text):
        file = self.root / name
        file.parent.mkdir(parents=True, exist_ok=True)
        file.write_text(text, encoding="utf-8")

    def cover(self, rows):
        self.write("docs/COVERAGE.md", "# Coverage\n\n" + HEAD + "\n".join(rows.values()) + "\n")

    def faults(self):
        return [str(fault) for fault in check_docs.check(self.root)[0]]

    def assert_only(self, *expected):
        self.assertEqual(self.faults(), list(expected))

    def run_main(self):
        out = io.StringIO()
        with contextlib.redirect_stdout(out):
            status = check_docs.main(["--root", str(self.root)])
        return status, out.getvalue()

    def test_good_tree(self):
        self.assert_only()
        self.assertEqual(
            self.run_main(),
            (0, "docs agree: 6 rules and demands, 5 of them with a row by hand, 2 rows with something open, 8 citations\n"),
        )

    def test_a_fault_is_printed_and_ends_with_status_1(self):
        self.write("include/a.h", "/* RULES 7.7 */\n")
        self.assertEqual(self.run_main(), (1, "include/a.h:1: cites rule 7.7, and there is none\n"))

    def test_missing_files(self):
        (self.root / "docs/COVERAGE.md").unlink()
        (self.root / "crates.txt").unlink()
        self.assert_only("docs/COVERAGE.md:1: the file is missing", "crates.txt:1: the file is missing")

    # (a) numbers of rules

    def test_numbered_twice(self):
        self.write("docs/RULES.md", RULES.replace("**1.2 Two.**", "**1.2 Two.**\n\n**1.2 Two.**"))
        self.assert_only("docs/RULES.md:15: rule 1.2 is numbered twice, first on line 13")

    def test_numbered_twice_in_a_table(self):
        self.write("docs/RULES.md", RULES + "| 2.1 | again | 1 |\n")
        self.assert_only("docs/RULES.md:25: rule 2.1 is numbered twice, first on line 23")

    def test_demand_numbered_twice(self):
        self.write("docs/RULES.md", RULES.replace("| D1a |", "| D1a | in time |\n| D1a |"))
        self.assert_only("docs/RULES.md:8: rule D1a is numbered twice, first on line 7")

    def test_out_of_sequence(self):
        self.write("docs/RULES.md", RULES + "| 2.4 | name | 1 |\n")
        self.cover(ROWS | {"2.4": "| 2.4 | name | open | open | open |"})
        self.assert_only("docs/RULES.md:25: rule 2.4 stands where 2.3 is due")

    def test_in_another_section(self):
        self.write("docs/RULES.md", RULES + "| 3.1 | name | 1 |\n")
        self.cover(ROWS | {"3.1": "| 3.1 | name | open | open | open |"})
        self.assert_only("docs/RULES.md:25: rule 3.1 stands in section 2")

    def test_sections_out_of_sequence(self):
        self.write("docs/RULES.md", RULES + "\n## 4 Fourth\n")
        self.assert_only("docs/RULES.md:26: section 4 follows section 2")

    # (b) rules and rows

    def test_rule_without_a_citation_or_a_row(self):
        self.cover({rule: row for rule, row in ROWS.items() if rule != "2.1"})
        why = "docs/RULES.md:23: no citation of rule 2.1 is under {}, and docs/COVERAGE.md has no row for it"
        self.assert_only(why.format("Defined"), why.format("Proved"), why.format("Run"))

    def test_demand_without_a_row(self):
        self.cover({rule: row for rule, row in ROWS.items() if rule != "D1a"})
        self.assertEqual({line.split(":")[1] for line in self.faults()}, {"7"})
        self.assertEqual(len(self.faults()), 3)

    def test_a_definition_that_no_longer_cites(self):
        self.write("crates/a/specs/A.antt", ANTT.replace("One (RULES 1.1)", "One"))
        why = "docs/RULES.md:11: no citation of rule 1.1 is under {}, and docs/COVERAGE.md has no row for it"
        self.assert_only(why.format("Defined"), why.format("Run"))

    def test_a_call_that_nothing_compares(self):
        self.write("oracle/compare/src/layers/gives.rs", LAYER.replace("proved::given", "given"))
        self.assert_only(
            "docs/COVERAGE.md:5: the row `1.2` says `as cited` under Run, and nothing is cited there",
            "docs/RULES.md:11: no citation of rule 1.1 is under Run, and docs/COVERAGE.md has no row for it",
        )

    def test_a_row_that_only_repeats(self):
        repeats = "| 1.1 | one | `crates/a/specs/A.antt` `one` | `crates/a/src/lib.rt` `give` | as cited |"
        self.cover(ROWS | {"1.1": repeats})
        self.assert_only(
            "docs/COVERAGE.md:10: the row `1.1` repeats what is derived: `crates/a/specs/A.antt` `one`",
            "docs/COVERAGE.md:10: the row `1.1` repeats what is derived: `crates/a/src/lib.rt` `give`",
        )

    def test_a_part_of_a_cell_that_only_repeats(self):
        run = "`oracle/compare/src/layers/gives.rs` `compare`; by reading"
        self.cover(ROWS | {"1.1": f"| 1.1 | one | as cited | as cited | {run} |"})
        self.assert_only(
            "docs/COVERAGE.md:10: the row `1.1` repeats what is derived: `oracle/compare/src/layers/gives.rs` `compare`"
        )

    def test_what_a_row_adds(self):
        defined = "`crates/a/specs/A.antt` `two_halves`; as a whole: `crates/a/specs/A.antt` `one`"
        self.cover(ROWS | {"1.1": f"| 1.1 | one | {defined} | as cited | by reading |"})
        self.assert_only()

    def test_a_row_that_says_nothing(self):
        self.cover(ROWS | {"1.1": "| 1.1 | one | as cited | as cited | as cited |"})
        self.assert_only("docs/COVERAGE.md:10: the row `1.1` says nothing")

    def test_as_cited_where_nothing_is(self):
        self.cover(ROWS | {"2.1": "| 2.1 | time | as cited | by form | by reading |"})
        self.assert_only("docs/COVERAGE.md:6: the row `2.1` says `as cited` under Defined, and nothing is cited there")

    def test_row_without_a_rule(self):
        self.cover(ROWS | {"2.3": "| 2.3 | none | open | open | open |"})
        self.assert_only("docs/COVERAGE.md:10: the row `2.3` names no rule")

    def test_row_that_names_no_number(self):
        self.cover(ROWS | {"x": "| time | none | open | open | open |"})
        self.assert_only("docs/COVERAGE.md:10: the row `time` names no rule")

    def test_two_rows(self):
        self.cover(ROWS | {"again": ROWS["1.2"]})
        self.assert_only("docs/COVERAGE.md:10: rule 1.2 has a row already, on line 5")

    def test_a_name_that_is_cited_is_not_open(self):
        self.write("crates/a/src/lib.rt", CODE + "pub fn open() {}\n")
        cited = "| 1.2 | two | by form | `crates/a/src/lib.rt` `open` | by reading |"
        self.cover(ROWS | {"1.2": cited})
        self.assert_only()
        self.assertEqual(check_docs.check(self.root)[1].open_rows, 2)
        self.cover(ROWS | {"1.2": cited.replace("by form", "open")})
        self.assertEqual(check_docs.check(self.root)[1].open_rows, 3)

    # what is derived

    def derived(self, rule):
        rules, _ = check_docs.read_rules(RULES, [])
        rows = coverage.read_rows((self.root / "docs/COVERAGE.md").read_text(encoding="utf-8"), rules, [])
        return coverage.Derived(self.root, rules, rows).covered[rule]

    def told(self, *asked):
        out = io.StringIO()
        with contextlib.redirect_stdout(out):
            coverage.main(["--root", str(self.root), *asked])
        return out.getvalue()

    def test_what_is_told_of_a_rule(self):
        self.assertEqual(
            self.told("1.1"),
            "## 1.1 One\n"
            "Defined: crates/a/specs/A.antt one\n"
            "Proved: crates/a/src/lib.rt give\n"
            "Laws: crates/a/proofs/Laws.antt itself\n"
            "Faults: crates/a/must-fail/faults_1.edit none_given\n"
            "Run: oracle/compare/src/layers/gives.rs\n",
        )

    def test_a_row_is_told_beside_what_is_derived(self):
        self.assertEqual(
            self.told("1.2"),
            "## 1.2 Two\n"
            "Proved: crates/a/src/lib.rt igelbert_give\n"
            "Run: oracle/compare/src/layers/gives.rs\n"
            "Defined, by hand: `crates/a/specs/A.antt` `two_halves`\n",
        )

    def test_all_rules_or_a_section_are_told(self):
        self.assertEqual(self.told().count("## "), 6)
        self.assertEqual(self.told("2").count("## "), 2)
        with self.assertRaisesRegex(SystemExit, "has no rule 7.7"):
            self.told("7.7")

    def test_shortened(self):
        long = "`crates/a/specs/A.antt` `one`, `two_halves`; as a whole: `crates/a/specs/A.antt` `one`"
        run = "`oracle/compare/src/layers/gives.rs` `compare`"
        rows = {"1.1": f"| 1.1 | one | {long} | `crates/a/src/lib.rt` `give` | {run}; by reading |", **ROWS}
        self.cover(rows)
        self.told("--shorten")
        said = (self.root / "docs/COVERAGE.md").read_text(encoding="utf-8")
        short = "`crates/a/specs/A.antt` `two_halves`; as a whole: `crates/a/specs/A.antt` `one`"
        rows["1.1"] = f"| 1.1 | one | {short} | as cited | by reading |"
        self.assertEqual(said, "# Coverage\n\n" + HEAD + "\n".join(rows.values()) + "\n")
        self.assert_only()
        self.told("--shorten")
        self.assertEqual(said, (self.root / "docs/COVERAGE.md").read_text(encoding="utf-8"))

    def test_a_table_that_has_no_row_left(self):
        only = "`crates/a/specs/A.antt` `one` | `crates/a/src/lib.rt` `give` | `oracle/compare/src/layers/gives.rs`"
        page = f"# Coverage\n\n## 1 First\n\n{HEAD}| 1.1 | one | {only} |\n\n## 2 Second\n\n{HEAD}{ROWS['2.1']}\n"
        self.write("docs/COVERAGE.md", page)
        self.told("--shorten")
        said = (self.root / "docs/COVERAGE.md").read_text(encoding="utf-8")
        self.assertEqual(said, f"# Coverage\n\n## 2 Second\n\n{HEAD}{ROWS['2.1']}\n")

    def test_a_range_covers_all_between(self):
        self.write("crates/a/specs/A.antt", ANTT.replace("RULES 1.1", "RULES 1.1 to\n-- 2.1"))
        one = coverage.Place("crates/a/specs/A.antt", "one")
        self.assertIn(one, self.derived("1.2").definitions)
        self.assertIn(one, self.derived("2.1").definitions)
        self.assertNotIn(one, self.derived("2.2").definitions)

    def test_the_nearest_contract_counts_where_none_names_the_definition(self):
        self.write("crates/a/src/lib.rt", CODE.replace("result ≡ one", "result ≡ result"))
        functions = {place.name for place in self.derived("1.1").functions}
        self.assertEqual(functions, {"igelbert_give"})

    def test_a_function_that_cites_the_rule_itself(self):
        self.write("crates/a/src/lib.rt", CODE.replace("What is given.", "What is given (docs/RULES.md, 2.2)."))
        self.assertEqual({place.name for place in self.derived("2.2").functions}, {"give"})
        self.assertEqual(self.derived("2.2").definitions, set())

    def test_a_section_is_no_rule(self):
        self.assertEqual(self.derived("2.1").functions, set())

    # (c) cells

    def test_empty_cell(self):
        self.cover(ROWS | {"1.2": "| 1.2 | two | open |  | open |"})
        self.assert_only("docs/COVERAGE.md:5: the row `1.2` has nothing under Proved; say `as cited` or `open`")

    def test_empty_last_cell(self):
        self.cover(ROWS | {"1.2": "| 1.2 | two | open | open | |"})
        self.assert_only("docs/COVERAGE.md:5: the row `1.2` has nothing under Run; say `as cited` or `open`")

    def test_missing_cell(self):
        self.cover(ROWS | {"2.1": "| 2.1 | time | open | open |"})
        self.assertIn("docs/COVERAGE.md:6: the row `2.1` has 4 cells, not 5", self.faults())

    # (d) paths and names

    def test_missing_path(self):
        self.cover(ROWS | {"1.2": "| 1.2 | two | `crates/b/specs/B.antt` `one` | open | open |"})
        self.assert_only("docs/COVERAGE.md:5: there is no file crates/b/specs/B.antt")

    def test_missing_path_in_the_opening(self):
        self.write("docs/COVERAGE.md", "See `docs/MORE.md`.\n\n" + HEAD + "\n".join(ROWS.values()) + "\n")
        self.assert_only("docs/COVERAGE.md:1: there is no file docs/MORE.md")

    def test_missing_names(self):
        row = "| 1.2 | two | `crates/a/specs/A.antt` `three`, `one` and `four` | open | open |"
        self.cover(ROWS | {"1.2": row})
        self.assert_only(
            "docs/COVERAGE.md:5: `four` does not occur in crates/a/specs/A.antt",
            "docs/COVERAGE.md:5: `three` does not occur in crates/a/specs/A.antt",
        )

    def test_a_part_of_a_name_is_not_the_name(self):
        self.cover(ROWS | {"1.2": "| 1.2 | two | `crates/a/specs/A.antt` `two` | open | open |"})
        self.assert_only("docs/COVERAGE.md:5: `two` does not occur in crates/a/specs/A.antt")

    def test_names_go_with_the_path_before_them(self):
        row = "| 1.2 | two | `crates/a/specs/A.antt` `one`, `crates/a/src/lib.rt` `halves` | open | open |"
        self.cover(ROWS | {"1.2": row})
        self.assert_only("docs/COVERAGE.md:5: `halves` does not occur in crates/a/src/lib.rt")

    # (e) citations

    def test_citations_of_no_rule(self):
        cases = {
            "crates/a/src/more.rt": "// RULES 2.9",
            "crates/a/specs/B.antt": "-- (RULES 1.9)",
            "oracle/tests/t.rs": "// (RULES 2.1, 2.2 and 9.1)",
            "include/a.h": "/* docs/RULES.md, 3.1 */",
            "docs/MORE.md": "By `docs/RULES.md`, section 5, and so on.",
        }
        for name, text in cases.items():
            self.write(name, "\n" + text + "\n")
        self.assert_only(
            "crates/a/specs/B.antt:2: cites rule 1.9, and there is none",
            "crates/a/src/more.rt:2: cites rule 2.9, and there is none",
            "docs/MORE.md:2: cites section 5, and there is none",
            "include/a.h:2: cites rule 3.1, and there is none",
            "oracle/tests/t.rs:2: cites rule 9.1, and there is none",
        )

    def test_a_citation_that_runs_on(self):
        self.write("crates/a/src/more.rt", "// (docs/RULES.md, 1.1, 1.2\n// and 1.7).\n")
        self.assert_only("crates/a/src/more.rt:1: cites rule 1.7, and there is none")

    def test_a_range_and_several_sections(self):
        self.write("docs/MORE.md", "RULES 1.1 to 1.5. RULES.md, sections 1 and 4.\n")
        self.assert_only(
            "docs/MORE.md:1: cites rule 1.5, and there is none",
            "docs/MORE.md:1: cites section 4, and there is none",
        )

    def test_a_rule_cited_as_a_section(self):
        self.write("docs/MORE.md", "RULES.md, section 2.9.\n")
        self.assert_only("docs/MORE.md:1: cites rule 2.9, and there is none")

    def test_a_rule_named_within_the_rules(self):
        self.write("docs/RULES.md", RULES.replace("As rule 2.1 says", "As rule 2.7 says"))
        self.assert_only("docs/RULES.md:11: cites rule 2.7, and there is none")

    def test_a_demand(self):
        self.write("docs/MORE.md", "RULES D4 and D1a\n")
        self.assert_only("docs/MORE.md:1: cites rule D4, and there is none")

    def test_built_files_are_left_alone(self):
        self.write("oracle/target/debug/t.rs", "// RULES 9.9\n")
        self.write("crates/a/out/generated/A.antt", "-- RULES 9.9\n")
        self.assert_only()

    def test_other_numbers_are_no_citations(self):
        self.write("docs/MORE.md", "Rules of 0.5 m, and 9.9 s. THE RULES, 300 of them.\n")
        self.assert_only()

    # (f) paths in guides

    def test_a_guide_that_names_what_is_not_there(self):
        paths = "See `crates/a/src/lib.rt` and\n`crates/a/src/gone.rt`, [rules](docs/RULES.md), [more](docs/MORE.md).\n"
        self.write("CONTRIBUTING.md", paths)
        self.assert_only("CONTRIBUTING.md:2: there is no crates/a/src/gone.rt", "CONTRIBUTING.md:2: there is no docs/MORE.md")

    def test_a_path_that_stands_for_many(self):
        self.write("CONTRIBUTING.md", "`crates/NAME/src/lib.rt`, `docs/landings/NAME.md`, `crates/*_exports`, `docs/RULES.md`\n")
        self.assert_only()

    def test_a_link_beside_the_guide(self):
        self.write("docs/HOUSE.md", "![picture](house.svg)\n")
        self.assert_only("docs/HOUSE.md:1: there is no house.svg")

    # (g) what runs a difference

    def test_a_difference_that_no_test_runs(self):
        self.write("docs/DIFFERENCES.md", DIFFERENCES.replace("it_differs", "it_does_not"))
        self.assert_only("docs/DIFFERENCES.md:3: `it_does_not` is no test of the oracle, and no file")

    def test_a_difference_that_names_nothing(self):
        self.write("docs/DIFFERENCES.md", DIFFERENCES.replace("`it_differs`", "by reading"))
        self.assert_only("docs/DIFFERENCES.md:3: the row names nothing that runs it")

    def test_a_difference_that_a_file_runs(self):
        self.write("docs/DIFFERENCES.md", DIFFERENCES.replace("it_differs", "oracle/planner/tests/t.rs"))
        self.assert_only()


if __name__ == "__main__":
    unittest.main()
