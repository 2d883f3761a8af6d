"""house.py places every citation on a file, refuses one that runs upward, draws the same house twice, and prints its list."""

import contextlib
import io
import pathlib
import sys
import tempfile
import unittest
import xml.etree.ElementTree

sys.path.insert(0, str(pathlib.Path(__file__).parents[1] / "tools"))
import house as tool  # noqa: E402
import house_svg as picture  # noqa: E402

ROOT = pathlib.Path(__file__).parents[1]

# Three crates of three floors, with every form of citation.
HOUSE = {
    "crates.txt": "## low\nlists:\n## middle\nshapes: lists\n## high\nreplay: lists shapes io libc\n",
    "crates/lists/src/lib.rt": "// Lists. Nothing else.\npub mod rows;\npub mod words;\n",
    "crates/lists/src/rows.rt": "// Rows.\nuse crate::words;\nghost use Rattle.lists.specs.Rows.{row};\n"
    "pub struct Row(u64);\npub fn put(r: Row) {\n    words::wipe(b\"x::y\");\n}\n",
    "crates/lists/src/words.rt": "// Words | of a room\n// that is lent (RULES 1.1). More.\npub fn wipe() {}\n",
    "crates/lists/specs/Lib.antt": "pub mod Rows\npub mod Base\n",
    "crates/lists/specs/Base.antt": "-- The base.\nbase : N\n",
    "crates/lists/specs/Rows.antt": "-- Rows.\n-- Assumes nothing.\nuse lib.ListN.{length}\nuse Rattle.std.specs.Prelude.{ℕ}\n"
    "use Rattle.lists.specs.Base.{base}\nuse Rattle.lists.specs.declared.rows.Row.{Row}\n"
    "use Rattle.lists.specs.declared.rows.Row.TheVariants as R\n",
    "crates/lists/proofs/Lib.antt": "mod Laws\n",
    "crates/lists/proofs/Laws.antt": "-- Laws.\n",
    "crates/lists/proofs/rows/put/Answers.antt": "-- put.\nuse Rattle.lists.proofs.Laws.{law}\n"
    "use Rattle.lists.proofs.rows.put.Goals as goal\nuse Rattle.lists.proofs.rows.put.Goals.{After-wipe}\n",
    "crates/shapes/src/lib.rt": "// Shapes.\npub mod leg;\n",
    "crates/shapes/src/leg.rt": "// Legs.\nuse lists::rows;\nuse lists::rows::Row;\nghost use Rattle.lists.specs.Rows.{row};\n"
    "pub struct Leg {\n    row: Row,\n}\npub fn go(l: Leg) {\n    rows::put(l.row);\n}\n",
    "crates/shapes/proofs/Lib.antt": "pub mod Legs\n",
    "crates/shapes/proofs/Legs.antt": "-- Legs.\nuse Rattle.lists.proofs.Laws.{law}\nuse Rattle.lists.proofs.rows.put.Reads\n"
    "use Rattle.lists.specs.declared.rows.Row.{Row}\n",
    "crates/replay/src/main.rt": "// Replays.\nmod calls;\nuse calls::Call;\nfn main() {\n    io::write_all(1, b\"\");\n}\n",
    "crates/replay/src/calls.rt": "// Calls.\npub enum Call {\n    One,\n}\nfn f() {\n    shapes::leg::go(u64::max());\n}\n",
    "docs/HOUSE.md": "| Floor | What it is for |\n|---|---|\n| low | lists |\n| middle | legs |\n| high | the program |\n",
}


class House(unittest.TestCase):
    def setUp(self):
        folder = tempfile.TemporaryDirectory()
        self.addCleanup(folder.cleanup)
        self.root = pathlib.Path(folder.name)
        for name, text in HOUSE.items():
            self.write(name, text)

    def write(self, name, text):
        file = self.root / name
        file.parent.mkdir(parents=True, exist_ok=True)
        file.write_text(text, encoding="utf-8")

    def add(self, name, text):
        self.write(name, HOUSE.get(name, "") + text)

    def faults(self):
        return [str(fault) for fault in tool.check(self.root).faults]

    def run_tool(self, *arguments):
        said = io.StringIO()
        with contextlib.redirect_stdout(said):
            status = tool.main(["--root", str(self.root), *arguments])
        return status, said.getvalue()

    def test_every_form_is_placed(self):
        house = tool.check(self.root)
        self.assertEqual(house.faults, [])
        files = {s.inside: [c.file.split("/", 2)[2] for c in s.cited] for s in house.of("lists")}
        self.assertEqual(files["src/rows.rt"], ["specs/Rows.antt", "src/words.rt", "src/words.rt"])
        self.assertEqual(files["specs/Rows.antt"], ["specs/Base.antt", "src/rows.rt", "src/rows.rt"])
        self.assertEqual(files["proofs/rows/put/Answers.antt"], ["proofs/Laws.antt", "src/rows.rt", "src/rows.rt"])
        self.assertEqual(house.cites("replay"), ["shapes"])
        self.assertEqual(house.sources["crates/replay/src/main.rt"].kit, {"io"})

    def test_a_comment_cites_nothing(self):
        self.add("crates/lists/src/words.rt", "// see shapes::leg and Rattle.shapes.proofs.Legs\n")
        self.add("crates/lists/specs/Base.antt", "  -- see Rattle.shapes.proofs.Legs\n")
        self.assertEqual(self.faults(), [])

    def test_what_is_made_of_an_impl_in_the_root_is_of_the_root(self):
        made = "#[derive(Clone, PartialEq)]\npub enum Why {\n    Short,\n}\nimpl From<Why> for u64 {\n    fn from(w: Why) -> u64 {}\n}\n"
        self.add("crates/lists/src/lib.rt", made)
        names = ("specs.contracts.U64FromWhy.from", "proofs.WhyPartialEq.eq.Met", "specs.contracts.WhyOrd.cmp")
        self.write("crates/lists/proofs/Laws.antt", "-- Laws.\n" + "".join(f"use Rattle.lists.{name} as m\n" for name in names))
        told = "cites `Rattle.lists.specs.contracts.WhyOrd.cmp`, and no file of the house has it"
        self.assertEqual(self.faults(), [f"crates/lists/proofs/Laws.antt:4: {told}"])

    def test_a_citation_of_no_file(self):
        lines = "use Rattle.lists.specs.Missing.{m}\nuse Rattle.nothing.specs.X.{m}\nuse Rattle.\n"
        self.add("crates/lists/specs/Base.antt", lines)
        self.add("crates/lists/src/words.rt", "use crate::missing;\nuse crate::rows as\n")
        self.assertEqual(
            self.faults(),
            [
                "crates/lists/specs/Base.antt:3: cites `Rattle.lists.specs.Missing.`, and no file of the house has it",
                "crates/lists/specs/Base.antt:4: cites `Rattle.nothing.specs.X.`, and no file of the house has it",
                "crates/lists/specs/Base.antt:5: cites `Rattle.`, and no file of the house has it",
                "crates/lists/src/words.rt:4: cites `crate::missing`, and no file of the house has it",
                "crates/lists/src/words.rt:5: `use crate::rows as` is a form of `use` that is not read here",
            ],
        )

    def test_an_arrow_upward(self):
        self.add("crates/lists/proofs/Laws.antt", "use Rattle.shapes.proofs.Legs.{leg}\n")
        self.assertEqual(
            self.faults(),
            [
                "crates/lists/proofs/Laws.antt:2: cites shapes, which stands above lists",
                "crates/lists/proofs/Laws.antt:2: cites shapes, which the line of lists in crates.txt does not name",
            ],
        )

    def test_an_arrow_upward_is_not_drawn(self):
        self.add("crates/lists/src/words.rt", "use shapes::leg;\n")
        status, said = self.run_tool()
        self.assertEqual(status, 1)
        self.assertIn("crates/lists/src/words.rt:4: cites shapes, which stands above lists\n", said)
        self.assertFalse((self.root / "docs/house.svg").exists())

    def test_a_line_that_names_what_stands_above(self):
        lines = HOUSE["crates.txt"].replace("lists:\n", "lists: shapes\n").replace("shapes: lists", "shapes: lists nowhere")
        self.write("crates.txt", lines)
        self.assertEqual(
            self.faults(),
            [
                "crates.txt:2: lists names shapes, which does not stand below it",
                "crates.txt:4: shapes names nowhere, and there is no such crate",
            ],
        )

    def test_a_crate_that_is_reached_and_not_named(self):
        self.write("crates.txt", HOUSE["crates.txt"].replace("replay: lists shapes", "replay: shapes"))
        self.add("crates/replay/src/calls.rt", "ghost use Rattle.lists.specs.Rows.{row};\n")
        self.assertEqual(
            self.faults(),
            ["crates/replay/src/calls.rt:8: cites lists, which the line of replay in crates.txt does not name"],
        )

    def test_a_library_of_the_kit_that_is_not_named(self):
        self.write("crates.txt", HOUSE["crates.txt"].replace(" io libc", ""))
        self.assertEqual(
            self.faults(), ["crates/replay/src/main.rt:1: cites io, which the line of replay in crates.txt does not name"]
        )

    def test_a_name_without_a_use(self):
        # lists is wanted while a leg is made of a row, and not once it is made of a number
        leg = "// Legs.\npub struct Leg {\n    row: u64,\n}\npub fn go(l: Leg) {}\n"
        self.write("crates/shapes/src/leg.rt", leg)
        self.assertEqual(self.faults(), ["crates.txt:6: replay names lists and cites nothing of it"])

    def test_a_crate_on_no_floor(self):
        self.write("crates.txt", "cellar:\n" + HOUSE["crates.txt"])
        self.write("crates/cellar/src/lib.rt", "// Below.\n")
        self.assertEqual(self.faults(), ["crates.txt:1: cellar is on no floor: no heading `## FLOOR` stands above it"])

    def test_a_new_crate_is_one_line(self):
        self.write("crates.txt", HOUSE["crates.txt"] + "attic: lists\n")
        self.write("crates/attic/src/lib.rt", "// The attic. More.\nghost use Rattle.lists.specs.Rows.{row};\n")
        self.assertEqual(self.faults(), [])
        self.assertIn("### attic\n\nThe attic.\n\nCites lists. Cited by no crate.\n", self.run_tool("--list")[1])

    def test_a_crate_that_does_not_say_what_it_is(self):
        self.write("crates/shapes/src/lib.rt", "pub mod leg;\n")
        self.assertEqual(self.faults(), ["crates/shapes/src/lib.rt:1: does not open with a comment that says what shapes is"])

    def test_a_heading_twice(self):
        self.write("crates.txt", HOUSE["crates.txt"] + "## low\n")
        self.assertEqual(self.faults(), ["crates.txt:7: the floor low has a heading already"])

    def test_a_floor_that_the_page_has_not(self):
        self.write("crates.txt", HOUSE["crates.txt"] + "## roof\n")
        self.assertEqual(
            self.faults(), ["docs/HOUSE.md:1: its floors are low, middle, high; crates.txt has low, middle, high, roof"]
        )
        self.write("docs/HOUSE.md", "")
        self.assertEqual(self.faults(), ["docs/HOUSE.md:1: its floors are none; crates.txt has low, middle, high, roof"])

    def test_a_folder_and_a_line_without_one_another(self):
        self.write("crates.txt", HOUSE["crates.txt"] + "plan:\n")
        self.write("crates/texts/src/lib.rt", "// Texts.\n")
        self.assertEqual(
            self.faults(),
            ["crates.txt:1: crates/texts has no line", "crates.txt:7: plan has neither src/lib.rt nor src/main.rt"],
        )

    def test_proofs_are_cited_by_proofs_alone(self):
        self.add("crates/lists/specs/Base.antt", "use Rattle.lists.proofs.Laws.{law}\n")
        self.add("crates/shapes/src/leg.rt", "ghost use Rattle.lists.proofs.rows.put.Reads.{r};\n")
        self.assertEqual(
            self.faults(),
            [
                "crates/lists/specs/Base.antt:3: definitions cite no proofs, and this is of the proofs of lists",
                "crates/shapes/src/leg.rt:11: code cites no proofs, and this is of the proofs of lists",
            ],
        )

    def test_a_word_to_the_prover_cites_as_a_proof(self):
        hint = "#[tactic(auto, using(lists::proofs::Laws::law, {}), unfolding(lists::specs::Rows::row))]\npub fn f() {{}}\n"
        self.add("crates/shapes/src/leg.rt", hint.format("crate::proofs::Legs::leg"))
        self.assertEqual(self.faults(), [])
        hinted = tool.check(self.root).sources["crates/shapes/src/leg.rt"].hinted
        self.assertEqual([(cited.line, cited.file) for cited in hinted], [
            (11, "crates/lists/proofs/Laws.antt"),
            (11, "crates/shapes/proofs/Legs.antt"),
            (11, "crates/lists/specs/Rows.antt"),
        ])
        self.write("crates/shapes/src/leg.rt", HOUSE["crates/shapes/src/leg.rt"] + hint.format("crate::proofs::Gone::leg"))
        self.assertEqual(
            self.faults(), ["crates/shapes/src/leg.rt:11: cites `crate::proofs::Gone::leg`, and no file of the house has it"]
        )

    def test_a_word_to_the_prover_runs_not_upward(self):
        self.add("crates/lists/src/words.rt", "#[tactic(auto, using(shapes::proofs::Legs::leg))]\npub fn f() {}\n")
        self.assertIn("crates/lists/src/words.rt:4: cites shapes, which stands above lists", self.faults())

    def test_a_static_library(self):
        lines = HOUSE["crates.txt"] + "lists_c staticlib: lists\n"
        self.write("crates.txt", lines)
        self.write("crates/lists_c/src/lib.rt", "// For C.\n#[unsafe(no_mangle)]\npub extern \"C\" fn f() {\n    lists::words::wipe()\n}\n")
        self.assertEqual(self.faults(), [])
        self.assertTrue(tool.check(self.root).crates["lists_c"].is_static)
        self.write("crates.txt", lines + "attic: lists_c\n")
        self.write("crates/attic/src/lib.rt", "// The attic.\n")
        self.assertEqual(self.faults(), ["crates.txt:8: attic names lists_c, which is for C alone"])
        self.write("crates.txt", HOUSE["crates.txt"] + "lists_c static: lists\n")
        self.assertIn("is not a crate's one line", self.faults()[-1])

    def test_a_circle(self):
        self.add("crates/lists/specs/Base.antt", "use Rattle.lists.specs.Rows.{row}\n")
        self.add("crates/lists/src/words.rt", "use crate::rows;\n")
        self.assertEqual(
            self.faults(),
            [
                "crates/lists/specs/Rows.antt:5: cites in a circle: Base, Rows, Base",
                "crates/lists/src/words.rt:4: cites in a circle: rows, words, rows",
            ],
        )

    def test_a_file_that_is_not_declared(self):
        self.write("crates/lists/specs/More.antt", "-- More.\n")
        self.write("crates/shapes/proofs/More.antt", "-- More.\n")
        self.write("crates/lists/src/more.rt", "// More.\n")
        self.assertEqual(
            self.faults(),
            [
                "crates/lists/specs/More.antt:1: the file is declared in no line of specs/Lib.antt",
                "crates/lists/src/more.rt:1: the file is declared by no `mod`",
                "crates/shapes/proofs/More.antt:1: the file is declared in no line of proofs/Lib.antt",
            ],
        )

    def test_drawn_twice_and_then_out_of_date(self):
        self.assertEqual(self.run_tool()[0], 0)
        first = (self.root / tool.PICTURE).read_text(encoding="utf-8")
        self.assertEqual(self.run_tool("--check"), (0, self.run_tool()[1]))
        self.assertEqual(first, (self.root / tool.PICTURE).read_text(encoding="utf-8"))
        self.assertEqual((self.root / tool.PAGE).read_text(encoding="utf-8"), HOUSE[tool.PAGE])
        self.add("crates/lists/specs/Base.antt", "more : N\n")
        self.assertEqual(self.run_tool("--check"), (1, "docs/house.svg:1: not what the sources say: run tools/house.py\n"))

    def test_the_list(self):
        status, told = self.run_tool("--list")
        self.assertEqual(status, 0)
        self.assertFalse((self.root / tool.PICTURE).exists())
        self.assertIn("## Floor 2: middle\n\n### shapes\n", told)
        self.assertIn("| `src/words.rt` | Words \\| of a room that is lent (RULES 1.1). |  |  |\n", told)
        self.assertIn("| `src/rows.rt` | Rows. | `specs/Rows.antt`, `src/words.rt` |  |\n", told)
        self.assertIn("| `proofs/rows/` | 1 function of `src/rows.rt` meets its contract. | `proofs/Laws.antt`", told)
        self.assertIn("| `src/main.rt` | Replays. | `src/calls.rt` | io |\n", told)
        self.assertIn("Cites no crate. Cited by shapes.\n", told)

    def test_no_list_of_a_house_with_a_fault(self):
        self.add("crates/lists/src/words.rt", "use shapes::leg;\n")
        status, told = self.run_tool("--list")
        self.assertEqual(status, 1)
        self.assertNotIn("## Floor", told)

    def test_functions_that_are_proved_together(self):
        self.write("crates/lists/proofs/rows/+put+get/Proof.antt", "-- put and get.\n")
        self.write("crates/lists/proofs/rows/Row/get/Proof.antt", "-- get of a row.\n")
        self.assertIn("3 functions of `src/rows.rt` meet their contracts.", self.run_tool("--list")[1])

    def test_no_tree(self):
        with self.assertRaisesRegex(SystemExit, "^house: .*crates.txt"):
            tool.main(["--root", str(self.root / "nowhere")])


class Picture(unittest.TestCase):
    def boxes(self, *rows):
        """Crates by floor; a name with `>` is followed by what it cites."""
        arrows = {}
        boxes = []
        for floor, names in enumerate(rows):
            for said in names.split():
                name, _, cited = said.partition(">")
                arrows[name] = cited.split(",") if cited else []
                boxes.append(picture.Box(name, floor, "What it is for, in a long sentence: " * 5, 3, (1, 2, 3), ()))
        return boxes, arrows

    def test_rows_are_within_floors(self):
        boxes, arrows = self.boxes("a b>a", "c d>c e>a f g h")
        self.assertEqual(picture.rows_of(boxes, arrows), [["a"], ["b"], ["c", "e", "f"], ["d", "g", "h"]])

    def test_an_arrow_that_passes_a_row_has_a_slot(self):
        boxes, arrows = self.boxes("a b>a", "c>a,b")
        rows, ways = picture.with_slots(picture.rows_of(boxes, arrows), arrows)
        self.assertEqual(rows[1], ["b", picture.Slot("c", "a", 1)])
        self.assertIn(["c", picture.Slot("c", "a", 1), "a"], ways)

    def test_crossed_arrows_are_put_apart(self):
        boxes, arrows = self.boxes("a b", "c>b d>a")
        rows, ways = picture.with_slots(picture.rows_of(boxes, arrows), arrows)
        _, down = picture.neighbours(ways)
        self.assertEqual(picture.crossings(rows, down), 1)
        self.assertEqual(picture.crossings(picture.ordered(rows, ways), down), 0)

    def test_nothing_overlaps(self):
        boxes, arrows = self.boxes("a b c", "d>a e>b f>c g>a,b", "h>d,c i>e,a j>f k>g,c")
        rows, ways = picture.with_slots(picture.rows_of(boxes, arrows), arrows)
        rows = picture.ordered(rows, ways)
        at = picture.places(rows, ways)
        for row in rows:
            for left, right in zip(row, row[1:]):
                apart = (picture.width(left) + picture.width(right)) / 2 + picture.SPACE
                self.assertGreaterEqual(at[right] - at[left], apart - 0.001)
            self.assertGreaterEqual(at[row[0]] - picture.width(row[0]) / 2, picture.SIDE - 0.001)
            self.assertLessEqual(at[row[-1]] + picture.width(row[-1]) / 2, picture.WIDTH)

    def test_a_long_purpose_ends_with_a_clause(self):
        said = picture.wrapped("One thing, " + "and more of it that is long (RULES 1.2), " * 3 + "and an end that does not fit.")
        self.assertLessEqual(len(said), picture.PURPOSE_LINES)
        self.assertTrue(all(len(line) <= picture.PURPOSE_CHARACTERS for line in said))
        self.assertTrue(said[-1].endswith("that is long."), said)

    def test_the_picture_is_well_formed(self):
        boxes, arrows = self.boxes("a b>a", "c>a,b")
        boxes[0] = boxes[0]._replace(purpose="a < b & c")
        drawn = xml.etree.ElementTree.fromstring(picture.draw(["low", "high"], boxes, arrows))
        self.assertEqual(drawn.attrib["width"], "1200")
        self.assertEqual(sum(1 for path in drawn.iter() if "marker-end" in path.attrib), 3)


class Today(unittest.TestCase):
    def test_no_arrow_of_the_repository_runs_upward(self):
        self.assertEqual(list(map(str, tool.check(ROOT).faults)), [])


if __name__ == "__main__":
    unittest.main()
