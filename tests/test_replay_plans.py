"""replay_plans.py takes a list apart, and tells a program that replies otherwise."""

import contextlib
import io
import pathlib
import subprocess
import sys
import tempfile
import unittest
from unittest import mock

ROOT = pathlib.Path(__file__).parents[1]
sys.path.insert(0, str(ROOT / "tools"))
import replay_plans as tool  # noqa: E402

LIST = "case noise 31 ff\nrefused 2\ncase empty 0 \nok 0 1 1 1\npath 5 0 0\n"


class Listed(unittest.TestCase):
    def test_cases(self):
        self.assertEqual(
            list(tool.cases(LIST)),
            [("noise 31", b"\xff", "refused 2\n"), ("empty 0", b"", "ok 0 1 1 1\npath 5 0 0\n")],
        )

    def test_no_list(self):
        for text in ("", "refused 2\n", "case noise 1 f\n"):
            with self.assertRaises(tool.Bad):
                list(tool.cases(text))

    def test_the_fixed_list_has_every_kind_and_refusal(self):
        text = (ROOT / "tests" / "answers" / "plans.list").read_text()
        found = list(tool.cases(text))
        first = [reply.split("\n")[0] for _, _, reply in found]
        self.assertEqual(len(found), 160)
        self.assertEqual(len({name.split()[0] for name, _, _ in found}), 32)
        for number in (1, 2, 3, 4, 5, 7, 8, 10, 11, 12):
            self.assertIn(f"refused {number}", first)


class Replayed(unittest.TestCase):
    def run_tool(self, script):
        with tempfile.TemporaryDirectory() as folder:
            program = pathlib.Path(folder) / "plan"
            program.write_text(f"#!/bin/sh\n{script}\n")
            program.chmod(0o755)
            listed = pathlib.Path(folder) / "list"
            listed.write_text("case noise 31 ff\nrefused 2\n")
            words = ["replay_plans", "--program", str(program), "--list", str(listed)]
            with mock.patch.object(sys, "argv", words), mock.patch.object(tool, "command", lambda p: [str(p)]):
                with contextlib.redirect_stdout(io.StringIO()), contextlib.redirect_stderr(io.StringIO()):
                    tool.main()

    def test_as_listed(self):
        self.run_tool("cat >/dev/null; echo refused 2")

    def test_another_reply(self):
        with self.assertRaisesRegex(SystemExit, "1 of 1 replies differ"):
            self.run_tool("cat >/dev/null; echo refused 3")

    def test_a_program_that_fails(self):
        with self.assertRaisesRegex(SystemExit, "status 3"):
            self.run_tool("exit 3")

    def test_no_program(self):
        ran = subprocess.run(
            [sys.executable, str(ROOT / "tools" / "replay_plans.py"), "--program", "/nowhere/plan"],
            capture_output=True,
        )
        self.assertNotEqual(ran.returncode, 0)


if __name__ == "__main__":
    unittest.main()
