"""The script `holds` takes a file or standard input, says what it cannot read, and gives what the program prints."""

import os
import pathlib
import shutil
import subprocess
import tempfile
import unittest

ROOT = pathlib.Path(__file__).parents[1]


class Holds(unittest.TestCase):
    """The script in a folder of its own, whose program says what it was given."""

    BUILDS = "mkdir -p out; printf '#!/bin/sh\\ncat\\n' >out/holds; chmod +x out/holds"

    def setUp(self):
        folder = tempfile.TemporaryDirectory()
        self.addCleanup(folder.cleanup)
        self.root = pathlib.Path(folder.name)
        shutil.copy(ROOT / "holds", self.root / "holds")
        (self.root / "tools").mkdir()
        shutil.copy(ROOT / "tools/program", self.root / "tools/program")
        for name in ("crates.txt", "crates/holds/src/main.rt", "crates/holds/stdin"):
            (self.root / name).parent.mkdir(parents=True, exist_ok=True)
            (self.root / name).write_text("")
        self.command("tools/preflight", "cat >/dev/null")
        self.command("bin/rt", f"cat >/dev/null; echo proved; echo \"$*\" >>'{self.root}/log'; {self.BUILDS}")
        self.command("bin/uname", "echo x86_64")
        (self.root / "year").write_text("3 1 2\n")

    def command(self, name, text):
        file = self.root / name
        file.parent.mkdir(parents=True, exist_ok=True)
        file.write_text(f"#!/bin/sh\n{text}\n")
        file.chmod(0o755)

    def run_holds(self, *arguments, said="4 1 2\n"):
        env = {"PATH": f"{self.root}/bin:{os.environ['PATH']}", "TMPDIR": str(self.root)}
        return subprocess.run(
            [self.root / "holds", *arguments], input=said, env=env, capture_output=True, text=True, cwd=self.root, check=False
        )

    def test_a_file(self):
        ended = self.run_holds("year")
        self.assertEqual((ended.returncode, ended.stdout), (0, "3 1 2\n"))

    def test_a_program_that_stands_is_not_made_again(self):
        for _ in range(3):
            self.assertEqual(self.run_holds("year").stdout, "3 1 2\n")
        log = self.root / "log"
        self.assertEqual(log.read_text(), "run\n")
        source = self.root / "crates/holds/src/main.rt"
        later = (self.root / "crates/holds/out/holds").stat().st_mtime + 1
        os.utime(source, (later, later))
        self.run_holds("year")
        self.assertEqual(log.read_text(), "run\nrun\n")

    def test_standard_input(self):
        for arguments in ([], ["-"]):
            ended = self.run_holds(*arguments)
            self.assertEqual((ended.returncode, ended.stdout), (0, "4 1 2\n"))

    def test_no_such_file(self):
        for name in ("nowhere", "tools"):
            ended = self.run_holds(name)
            self.assertEqual((ended.returncode, ended.stdout), (1, ""))
            self.assertIn(f"holds: {name}: there is no such file", ended.stderr)

    def test_usage(self):
        for arguments in (["year", "year"], ["--help"]):
            ended = self.run_holds(*arguments)
            self.assertEqual(ended.returncode, 2)
            self.assertIn("usage: ./holds [FILE]", ended.stderr)

    def test_a_program_that_is_not_proved(self):
        self.command("bin/rt", "echo NOT PROVED >&2; exit 1")
        ended = self.run_holds("year")
        self.assertEqual((ended.returncode, ended.stdout), (1, ""))
        self.assertIn("NOT PROVED", ended.stderr)


if __name__ == "__main__":
    unittest.main()
