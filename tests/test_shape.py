"""The measures of a source, on sources small enough to see."""

import contextlib
import io
import sys
import tempfile
import unittest
from pathlib import Path

sys.path.insert(0, str(Path(__file__).resolve().parents[1] / "tools"))
import shape

EIGHT = ", ".join(f"{name}: u64" for name in "abcdefgh")
SMALL = "// A sum.\npub fn sum(a: u64, b: u64) -> u64\n    ensures { result ≡ a + b }\n{\n    a + b\n}\n"


def told(text, more=None):
    """What is found in a source."""
    return [str(fault) for fault in shape.faults({"crates/a/src/lib.rt": text, **(more or {})})]


class Shape(unittest.TestCase):
    def test_a_small_function_is_fine(self):
        self.assertEqual(told(SMALL), [])

    def test_a_function_and_its_parameters_are_read(self):
        (only,) = shape.functions("a", SMALL)
        self.assertEqual((only.name, only.line, only.parameters, only.exported), ("sum", 2, ["a: u64", "b: u64"], False))
        self.assertEqual(only.body.strip(), "a + b")

    def test_a_method_and_a_function_without_a_contract_are_read(self):
        text = "impl Leg {\n    pub fn go(self) -> u64\n        ensures { result ≡ 1 }\n    {\n        1\n    }\n}\n\nfn none() {\n    go();\n}\n\nfn main() {}\n"
        self.assertEqual([(f.name, f.body.strip()) for f in shape.functions("a", text)], [("go", "1"), ("none", "go();"), ("main", "")])

    def test_a_wide_line_is_named(self):
        text = SMALL.replace("// A sum.", "// " + 130 * "x")
        self.assertEqual(told(text), ["crates/a/src/lib.rt:1: 133 columns; 132 is the most"])

    def test_columns_are_letters_and_not_bytes(self):
        self.assertEqual(told(SMALL.replace("// A sum.", "// " + 129 * "≡")), [])

    def test_eight_parameters_are_the_most(self):
        text = SMALL.replace("a: u64, b: u64", EIGHT)
        self.assertEqual(told(text), [])
        text = SMALL.replace("a: u64, b: u64", f"\n    {EIGHT},\n    i: u64,\n")
        self.assertEqual(told(text), ["crates/a/src/lib.rt:2: `sum` has 9 parameters; 8 is the most"])

    def test_a_call_for_c_and_what_it_calls_may_have_more(self):
        text = SMALL.replace("a: u64, b: u64", f"{EIGHT}, i: u64")
        export = f'pub extern "C" fn igelbert_sum({EIGHT}, i: u64) -> u64\n    ensures {{ result ≡ 1 }}\n{{\n    lib::sum(a, b)\n}}\n'
        self.assertEqual(told(text, {"crates/b/src/calls.rt": export}), [])

    def test_a_call_in_its_library_and_what_it_calls_may_have_more(self):
        text = SMALL.replace("a: u64, b: u64", f"{EIGHT}, i: u64")
        call = f"pub fn igelbert_sum({EIGHT}, i: u64) -> u64\n    ensures {{ result ≡ 1 }}\n{{\n    lib::sum(a, b)\n}}\n"
        self.assertEqual(told(text, {"crates/b/src/calls.rt": call}), [])
        self.assertEqual(len(told(text, {"crates/b/src/calls.rt": call.replace("igelbert_sum", "other_sum")})), 2)

    def test_a_long_function_is_named(self):
        body = "".join(f"    let x{n} = {n};\n" for n in range(39))
        self.assertEqual(told(SMALL.replace("    a + b\n", body)), [])
        self.assertEqual(
            told(SMALL.replace("    a + b\n", body + "    a + b\n")),
            ["crates/a/src/lib.rt:2: `sum` has 40 lines; fewer than 40 are allowed"],
        )

    def test_the_command_counts_or_names_and_ends_so(self):
        with tempfile.TemporaryDirectory() as folder:
            file = Path(folder, "crates/a/src/lib.rt")
            file.parent.mkdir(parents=True)
            for text, status, said in ((SMALL, 0, "shape: 1 functions in 1 sources"), (SMALL + "//" + 140 * "x" + "\n", 1, ":7: 142 columns")):
                file.write_text(text, encoding="utf-8")
                out = io.StringIO()
                with contextlib.redirect_stdout(out):
                    self.assertEqual(shape.main([folder]), status)
                self.assertIn(said, out.getvalue())

    def test_a_folder_without_sources_is_an_error(self):
        with tempfile.TemporaryDirectory() as folder, self.assertRaises(SystemExit) as ended:
            with contextlib.redirect_stderr(io.StringIO()):
                shape.main([folder])
        self.assertEqual(ended.exception.code, 2)


if __name__ == "__main__":
    unittest.main()
