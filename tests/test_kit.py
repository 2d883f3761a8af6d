"""kit.py finds in the kit what the tools ask of it."""

import os
import pathlib
import sys
import tempfile
import unittest
from unittest import mock

sys.path.insert(0, str(pathlib.Path(__file__).parents[1] / "tools"))
import kit as tool  # noqa: E402


class Kit(unittest.TestCase):
    def test_what_static_libraries_asks_for(self):
        rtlib = tool.load("rtlib")
        self.assertTrue(os.access(rtlib.RATTLE, os.X_OK))
        self.assertTrue(pathlib.Path(rtlib.KIT, "toolchain").is_dir())
        self.assertTrue(all(hasattr(rtlib.Crate, name) for name in ("below", "words")))

    def test_what_refusals_asks_for(self):
        rt = tool.load("rt")
        self.assertTrue(all(callable(getattr(rt, name)) for name in ("edited", "linked", "checked")))
        self.assertTrue(callable(rt.rtlib.guarded) and callable(rt.rtlib.Crate.stamp))
        with tempfile.TemporaryDirectory() as folder:
            pathlib.Path(folder, "src").mkdir()
            pathlib.Path(folder, "src/lib.rt").write_text("a b\n")
            texts, why = rt.edited("# x: y\nfile: src/lib.rt\nold: b\nnew: c", folder)
            self.assertEqual((texts, why), ({"src/lib.rt": "a c\n"}, None))
            self.assertIn("0 times", rt.edited("file: src/lib.rt\nold: d\nnew: c", folder)[1])

    def test_what_changed_asks_for(self):
        rt = tool.load("rt")
        self.assertTrue(callable(rt.places_of) and callable(rt.rtlib.Crate))

    def test_without_a_kit(self):
        with mock.patch.dict(os.environ, {"PATH": ""}), self.assertRaisesRegex(OSError, "rt is missing"):
            tool.load("rtlib")


if __name__ == "__main__":
    unittest.main()
