"""check_exports.py tells declarations and versions that agree from those that do not."""

import pathlib
import sys
import tempfile
import unittest
from unittest import mock

sys.path.insert(0, str(pathlib.Path(__file__).parents[1] / "tools"))
import check_exports as tool  # noqa: E402

RATTLE = """
#[unsafe(no_mangle)]
pub extern "C" fn igelbert_f(a: i64, xs: &[f64], s: &[u8], out: &mut [u64]) -> u64
    ensures { result ≡ 0 }
{
"""
HEADER = """
/* about igelbert_f(void); */
uint64_t igelbert_f(int64_t a, const double *xs, size_t xs_len, const uint8_t *s,
                    size_t s_len, uint64_t *out, size_t out_len);
"""
RUST = """
extern "C" {
    fn igelbert_f(a: i64, xs: *const f64, xs_len: usize, s: *const u8, s_len: usize, out: *mut u64, out_len: usize) -> u64;
}
"""


def found(rattle=RATTLE, header=HEADER, rust=RUST):
    return list(
        tool.complaints(tool.from_rattle(rattle), tool.from_header(header), tool.from_rust(rust))
    )


class Exports(unittest.TestCase):
    def test_agreeing(self):
        self.assertEqual(found(), [])

    def test_another_type_in_the_header(self):
        self.assertIn("should be", found(header=HEADER.replace("int64_t a", "uint64_t a"))[0])

    def test_a_shared_slice_is_const(self):
        self.assertIn("should be", found(header=HEADER.replace("const double", "double"))[0])

    def test_another_order_in_the_rust(self):
        swapped = RUST.replace("xs: *const f64, xs_len: usize", "xs_len: usize, xs: *const f64")
        self.assertIn("should be", found(rust=swapped)[0])

    def test_a_missing_function(self):
        self.assertIn("missing", found(header="")[0])

    def test_a_function_too_many(self):
        self.assertIn("no function", found(rattle="", rust="")[0])

    def test_a_name_without_the_prefix(self):
        other = RATTLE.replace("igelbert_f", "f")
        self.assertTrue(any("does not begin" in line for line in found(rattle=other)))

    def test_a_type_that_cannot_pass(self):
        with self.assertRaises(tool.Bad):
            tool.from_rattle(RATTLE.replace("a: i64", "a: Span"))


LIBRARY = """// Answers (RULES 1.1).
ghost use Rattle.std.specs.Prelude.{[], ◌∷◌, length};
ghost use Rattle.std.specs.Float.Ieee;
ghost use Rattle.std.specs.Float.{binary64};
ghost use Rattle.lent.specs.Outcome.{Handed, Refuses};

use lent::words;

fn inner(n: u64) -> u64
    ensures { Refuses result }
{
    n
}

// The answer.
// In words.
pub fn igelbert_f(a: i64, xs: &[f64], out: &mut [u64]) -> u64
    ensures { Handed (Ieee.of a ∷ [])
        out.old out.new result }
{
    inner(words::of(a))
}
"""
THIN = """// Answers (RULES 1.1).
ghost use Rattle.std.specs.Prelude.{[], ◌∷◌};
ghost use Rattle.std.specs.Float.Ieee;
ghost use Rattle.lent.specs.Outcome.{Handed};

// The answer.
// In words.
#[unsafe(no_mangle)]
pub extern "C" fn igelbert_f(a: i64, xs: &[f64], out: &mut [u64]) -> u64
    ensures { Handed (Ieee.of a ∷ [])
        out.old out.new result }
{
    f_exports::calls::igelbert_f(a, xs, out)
}
"""


class Thin(unittest.TestCase):
    """A static library that is written from its library."""

    def setUp(self):
        folder = tempfile.TemporaryDirectory()
        self.addCleanup(folder.cleanup)
        self.root = pathlib.Path(folder.name)
        self.write("crates/f_exports/src/lib.rt", "// Calls.\npub mod calls;\npub mod inner;\n")
        self.write("crates/f_exports/src/inner.rt", "// Inner.\npub fn g() {}\n")
        self.write("crates/f_exports/src/calls.rt", LIBRARY)

    def write(self, name, text):
        file = self.root / name
        file.parent.mkdir(parents=True, exist_ok=True)
        file.write_text(text, encoding="utf-8")

    def found(self):
        return list(tool.thin_complaints(self.root))

    def test_what_is_written(self):
        self.assertEqual(tool.thin_module("f_exports", "calls", LIBRARY), THIN)
        self.assertEqual(tool.thin_module("f_exports", "inner", "// Inner.\npub fn g() {}\n"), "")
        told_how = LIBRARY.replace("pub fn igelbert_f(", "#[tactic(auto)]\npub fn igelbert_f(")
        self.assertNotEqual(told_how, LIBRARY)
        self.assertEqual(tool.thin_module("f_exports", "calls", told_how), THIN)

    def test_written_and_held(self):
        self.assertEqual(len(self.found()), 2)
        with mock.patch.object(tool.subprocess, "run") as laid_out:
            tool.write_thin(self.root)
            tool.write_thin(self.root)
        self.assertEqual(laid_out.call_count, 1)
        self.assertEqual(self.found(), [])
        head = (self.root / "crates/f_exports_c/src/lib.rt").read_text(encoding="utf-8")
        self.assertTrue(head.endswith("#![tactic(auto)]\n\npub mod calls;\n"), head)

    def test_layout_is_for_the_toolchain_to_say(self):
        with mock.patch.object(tool.subprocess, "run"):
            tool.write_thin(self.root)
        file = "crates/f_exports_c/src/calls.rt"
        self.write(file, THIN.replace("(a, xs, out)", "(\n        a, xs, out,\n    )").replace("\n        out.old", " out.old"))
        self.assertEqual(self.found(), [])

    def test_another_clause_or_parameter_or_call(self):
        with mock.patch.object(tool.subprocess, "run"):
            tool.write_thin(self.root)
        file = "crates/f_exports_c/src/calls.rt"
        for old, new in (("of a ∷", "of 0 ∷"), ("a: i64", "a: u64"), ("(a, xs, out)", "(a, ys, out)"), ("no_mangle", "naked")):
            self.write(file, THIN.replace(old, new))
            self.assertEqual(self.found(), [f"{file}: is not what its library says: run tools/check_exports.py --write"], old)

    def test_a_module_too_many(self):
        with mock.patch.object(tool.subprocess, "run"):
            tool.write_thin(self.root)
        self.write("crates/f_exports_c/src/more.rt", THIN)
        self.assertEqual(self.found(), ["crates/f_exports_c/src/more.rt: is of no module with exports"])

    def test_what_is_not_exported_does_not_count(self):
        self.assertEqual(tool.from_rattle(THIN.replace("#[unsafe(no_mangle)]\n", "")), {})
        self.assertEqual(list(tool.from_rattle(THIN)), ["igelbert_f"])


REFUSALS = """
enum igelbert_refusal {
    IGELBERT_NUMBER = 1,
    IGELBERT_SHAPE = 2
};
"""
CONSTANTS = "// One.\npub const NUMBER: u64 = 1;\n\n// Two.\npub const SHAPE: u64 = 2;\n"


class Refusals(unittest.TestCase):
    def found(self, header=REFUSALS, constants=CONSTANTS):
        return list(tool.refusal_complaints(header, constants))

    def test_agreeing(self):
        self.assertEqual(self.found(), [])

    def test_another_number_in_the_header(self):
        self.assertIn("are not those of", self.found(header=REFUSALS.replace("= 2", "= 3"))[0])

    def test_a_refusal_that_the_header_lacks(self):
        self.assertIn("are not those of", self.found(constants=CONSTANTS + "pub const BACKWARD: u64 = 3;\n")[0])

    def test_no_refusal_at_all(self):
        self.assertIn("names no refusal", self.found(header="", constants="")[0])


VERSION = """
#define IGELBERT_VERSION_MAJOR 0
#define IGELBERT_VERSION_MINOR 2
#define IGELBERT_VERSION_PATCH 10
#define IGELBERT_VERSION "0.2.10"
"""
CHANGELOG = "# Changelog\n\n## Unreleased\n\n## 0.2.10\n\n## 0.1.0\n"


class Version(unittest.TestCase):
    def found(self, header=VERSION, changelog=CHANGELOG):
        return list(tool.version_complaints(header, changelog))

    def test_agreeing(self):
        self.assertEqual(self.found(), [])

    def test_a_string_that_is_not_its_parts(self):
        changed = VERSION.replace('"0.2.10"', '"0.2.1"')
        self.assertEqual(self.found(header=changed), ["include/igelbert.h: IGELBERT_VERSION is 0.2.1, and its parts are 0.2.10"])

    def test_a_missing_part(self):
        changed = VERSION.replace("#define IGELBERT_VERSION_MINOR 2\n", "")
        self.assertEqual(
            self.found(header=changed), ["include/igelbert.h: IGELBERT_VERSION_MAJOR, _MINOR and _PATCH are not all numbers"]
        )

    def test_a_missing_string(self):
        changed = VERSION.replace('#define IGELBERT_VERSION "0.2.10"\n', "")
        self.assertEqual(self.found(header=changed), ["include/igelbert.h: IGELBERT_VERSION is None, and its parts are 0.2.10"])

    def test_a_release_that_the_header_has_not(self):
        changed = CHANGELOG.replace("## 0.2.10", "## 0.3.0\n\n## 0.2.10")
        self.assertEqual(
            self.found(changelog=changed), ["include/igelbert.h: the version is 0.2.10, and CHANGELOG.md has released 0.3.0"]
        )

    def test_no_room_for_what_is_not_released(self):
        changed = CHANGELOG.replace("## Unreleased\n\n", "")
        self.assertEqual(self.found(changelog=changed), ["CHANGELOG.md: its first heading is not `## Unreleased`"])

    def test_today(self):
        root = pathlib.Path(__file__).parents[1]
        header, changelog = (root / name for name in ("include/igelbert.h", "CHANGELOG.md"))
        self.assertEqual(self.found(header.read_text(), changelog.read_text()), [])


if __name__ == "__main__":
    unittest.main()
