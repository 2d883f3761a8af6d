"""The gate says what is missing, is not talked out of the comparison where CI is true, and ends with the verdict of `rt ci`.

`./test quick` claims no more than it ran."""

import os
import pathlib
import shutil
import subprocess
import tempfile
import unittest

ROOT = pathlib.Path(__file__).parents[1]
# what the two scripts themselves call
BASIC = ["sh", "dirname", "uname", "id"]


def run(script, **env):
    keep = {"PATH": os.environ["PATH"]}
    return subprocess.run(
        [ROOT / "tools" / script], env=keep | env, capture_output=True, text=True, check=False
    )


class Preflight(unittest.TestCase):
    def setUp(self):
        self.folder = tempfile.TemporaryDirectory()
        self.addCleanup(self.folder.cleanup)
        for name in BASIC:
            os.symlink(shutil.which(name), pathlib.Path(self.folder.name, name))

    def add(self, name, text):
        command = pathlib.Path(self.folder.name, name)
        command.unlink(missing_ok=True)
        command.write_text(f"#!/bin/sh\n{text}\n")
        command.chmod(0o755)

    def preflight(self):
        return run("preflight", PATH=self.folder.name)

    def test_without_rt(self):
        ended = self.preflight()
        self.assertNotEqual(ended.returncode, 0)
        self.assertIn("rt is missing", ended.stderr)
        self.assertIn("kit", ended.stderr)

    def test_without_debian(self):
        self.add("rt", "exit 0")
        ended = self.preflight()
        self.assertNotEqual(ended.returncode, 0)
        self.assertIn("librust-smallvec-dev", ended.stderr)

    def test_packages_are_named_to_a_user_who_is_not_root(self):
        self.add("rt", "exit 0")
        self.add("dpkg-query", "exit 1")
        self.add("id", "echo 1000")
        ended = self.preflight()
        self.assertNotEqual(ended.returncode, 0)
        self.assertIn("apt-get install", ended.stderr)
        self.assertIn("librust-arrayvec-dev", ended.stderr)

    def test_packages_are_installed_by_root(self):
        self.add("rt", "exit 0")
        self.add("dpkg-query", "exit 1")
        self.add("id", "echo 0")
        log = pathlib.Path(self.folder.name, "log")
        self.add("dpkg", "exit 0")
        self.add("apt-get", f'echo "$@" >>{log}')
        self.assertEqual(self.preflight().returncode, 0)
        self.assertIn("librust-thiserror-dev", log.read_text())

    def test_an_installation_that_fails_is_told(self):
        self.add("rt", "exit 0")
        self.add("dpkg-query", "exit 1")
        self.add("id", "echo 0")
        self.add("dpkg", "exit 0")
        self.add("apt-get", "exit 100")
        ended = self.preflight()
        self.assertNotEqual(ended.returncode, 0)
        self.assertIn("could not be installed", ended.stderr)

    def test_with_everything(self):
        self.add("rt", "exit 0")
        self.add("dpkg-query", "echo installed")
        self.add("python3", "exit 0")
        self.add("cargo", "exit 0")
        self.add("cc", "exit 0")
        self.assertEqual(self.preflight().returncode, 0)


class RustSource(unittest.TestCase):
    def test_left_out_with_a_word(self):
        ended = run("rust-source", IGELBERT_MAPF="/nowhere")
        self.assertEqual(ended.returncode, 3)
        self.assertIn("left out", ended.stderr)
        self.assertIn("IGELBERT_MAPF=DIR", ended.stderr)

    def test_a_failure_in_ci(self):
        ended = run("rust-source", IGELBERT_MAPF="/nowhere", CI="true")
        self.assertEqual(ended.returncode, 1)
        self.assertIn("IGELBERT_MAPF=DIR", ended.stderr)

    def test_a_folder_that_has_it(self):
        with tempfile.TemporaryDirectory() as folder:
            motion = pathlib.Path(folder, "mapf/src/motion")
            motion.mkdir(parents=True)
            (motion / "conflict.rs").touch()
            ended = run("rust-source", IGELBERT_MAPF=folder, CI="true")
            self.assertEqual((ended.returncode, ended.stdout.strip()), (0, folder))


class Gate(unittest.TestCase):
    """The script `test` in a folder of its own, where every command only notes that it was called."""

    TOOLS = ["preflight", "rust-source", "check-answers", "static-libraries", "changed"]
    OK = "rt: ok; handles allowed: none; must-fail edits: 3 refused"
    VERDICT = f"{OK}; every proof and must-fail edit was done in this run\n3 passed, 0 failed"

    def setUp(self):
        folder = tempfile.TemporaryDirectory()
        self.addCleanup(folder.cleanup)
        self.root = pathlib.Path(folder.name)
        shutil.copy(ROOT / "test", self.root / "test")
        for name in self.TOOLS:
            self.command(f"tools/{name}")
        self.command("tools/rust-source", "exit 3")
        self.command("oracle/cargo")
        self.command("bin/python3")
        self.ci_says(self.VERDICT)
        self.command("plan", "cat examples/one.answer")
        self.file("examples/one.txt")
        self.file("examples/one.answer", "ok\n")
        self.command("holds", "cat examples/year.report")
        self.file("examples/year.holds")
        self.file("examples/year.report", "ok 0\n")
        for crate in ("a", "b"):
            self.file(f"crates/{crate}/src/lib.rt")

    def ci_says(self, text):
        self.command("bin/rt", f"[ \"$1\" != ci ] || printf '%s\\n' '{text}'")

    def file(self, name, text="", age=0):
        file = self.root / name
        file.parent.mkdir(parents=True, exist_ok=True)
        file.write_text(text)
        os.utime(file, (os.stat(file).st_mtime - age,) * 2)

    def command(self, name, text=""):
        self.file(name, f"#!/bin/sh\necho \"{pathlib.Path(name).name} $*\" >>'{self.root}/log'\n{text}\n")
        (self.root / name).chmod(0o755)

    def gate(self, *arguments, **env):
        keep = {"PATH": f"{self.root}/bin:{os.environ['PATH']}", "TMPDIR": str(self.root)}
        return subprocess.run([self.root / "test", *arguments], env=keep | env, capture_output=True, text=True, check=False)

    def called(self):
        log = self.root / "log"
        return log.read_text().splitlines() if log.exists() else []

    def test_other_arguments_run_nothing(self):
        for arguments in (["fast"], ["--quick"], ["quick", "now"], [""]):
            ended = self.gate(*arguments)
            self.assertEqual(ended.returncode, 2, arguments)
            self.assertIn("usage: ./test", ended.stderr)
        self.assertEqual(self.called(), [])

    def test_the_verdict_is_the_last_line(self):
        ended = self.gate()
        self.assertEqual(ended.returncode, 0, ended.stderr)
        self.assertTrue(ended.stdout.endswith(self.VERDICT + "\n"), ended.stdout)
        self.assertRegex(ended.stdout, r"\n== the gate took \d+ s\n")
        steps = ("python3 tools/check_docs.py", "python3 tools/refusals.py --form", "rt ci", "python3 tools/contracts.py --built")
        self.assertLessEqual({*steps, "plan examples/one.txt", "holds examples/year.holds"}, set(self.called()))
        self.assertEqual([call for call in self.called() if call.startswith("rt ")], ["rt ci"])

    def test_every_fault_is_tried_unless_the_gate_has_taken_long(self):
        self.assertIn("python3 tools/refusals.py ", [f"{call} " for call in self.called_by(REFUSALS_WITHIN="1200")])
        ended = self.gate(REFUSALS_WITHIN="0")
        self.assertEqual(ended.returncode, 0, ended.stderr)
        self.assertRegex(ended.stdout, r"\n== left out, after \d+ s: python3 tools/refusals.py\n")

    def called_by(self, **env):
        self.assertEqual(self.gate(**env).returncode, 0)
        return [call.rstrip() for call in self.called()]

    def test_an_edit_that_counts_for_nothing(self):
        for count, status in (("0", 0), ("1", 1), ("12", 1)):
            with self.subTest(count):
                self.ci_says(f"{self.OK}, {count} bad; every proof was done in this run\n3 passed, 0 failed")
                self.assertEqual(self.gate().returncode, status)

    def test_refused_by_a_limit_is_refused(self):
        self.ci_says(f"{self.OK}, 2 of them only by a limit; done in this run: 1 of the 2 proofs\n3 passed, 0 failed")
        self.assertEqual(self.gate().returncode, 0)
        self.ci_says(f"{self.OK}, 2 of them only by a limit, 1 bad; done in this run: 1 of the 2 proofs\n3 passed, 0 failed")
        self.assertEqual(self.gate().returncode, 1)

    def test_a_verdict_that_cannot_be_read(self):
        for said in ("3 passed, 0 failed", f"{self.OK}; all", f"{self.OK}; all\n0 passed, 0 failed", f"{self.OK}\n3 passed, 1 failed"):
            with self.subTest(said):
                self.ci_says(said)
                self.assertEqual(self.gate().returncode, 1)

    def test_a_failure_ends_before_the_verdict(self):
        self.command("bin/python3", '[ "$1" != tools/replay_plans.py ]')
        ended = self.gate()
        self.assertNotEqual(ended.returncode, 0)
        self.assertNotIn(self.VERDICT, ended.stdout)

    def test_an_example_that_is_answered_otherwise(self):
        for name in ("plan", "holds"):
            with self.subTest(name):
                self.command(name, "echo refused 14")
                ended = self.gate()
                self.assertNotEqual(ended.returncode, 0)
                self.assertNotIn(self.VERDICT, ended.stdout)

    def test_the_source_of_the_rust_where_it_must_be(self):
        self.command("tools/rust-source", "exit 1")
        ended = self.gate()
        self.assertEqual(ended.returncode, 1)
        self.assertNotIn("rt ci", self.called())

    def test_what_is_proved_is_compared(self):
        self.command("tools/rust-source")
        ended = self.gate()
        self.assertEqual(ended.returncode, 0, ended.stderr)
        compared = ["rt ci", "static-libraries --after-ci", "cargo run -q --release -p compare -- --count 20000"]
        self.assertEqual([call for call in self.called() if call in compared], compared)
        self.assertIn("check-answers ", self.called())
        self.command("oracle/cargo", "exit 101")
        ended = self.gate()
        self.assertEqual(ended.returncode, 1)
        self.assertNotIn(self.VERDICT, ended.stdout)

    def test_proofs_that_fail(self):
        self.command("bin/rt", '[ "$1" != ci ] || { echo "rt: FAILED: a"; exit 1; }')
        ended = self.gate()
        self.assertEqual(ended.returncode, 1)
        self.assertTrue(ended.stdout.endswith("rt: FAILED: a\n"), ended.stdout)

    def test_quick_without_a_proof_so_far(self):
        ended = self.gate("quick")
        self.assertEqual(ended.returncode, 0, ended.stderr)
        self.assertIn("every proof: no crate has been proved here yet", ended.stdout)
        self.assertIn("the oracle's own tests: they are not built", ended.stdout)
        self.assertIn("the must-fail edits, the layout, the comparison with the Rust", ended.stdout)
        self.assertRegex(ended.stdout.splitlines()[-1], r"^== all that was run holds, after \d+ s; the gate is ./test$")
        self.assertEqual([call for call in self.called() if call.startswith("rt ") or call.startswith("changed")], [])
        self.assertIn("python3 -m unittest discover -q -s tests", self.called())

    def proved_but(self, *changed, text=""):
        """Crates that were proved here, but for those that were changed; `rt` notes in which folder it runs."""
        self.file("crates/a/out/incremental/kept")
        self.command("tools/changed", f"printf '%s\\n' {' '.join(changed)}" if changed else "")
        self.command("bin/rt", f"echo \"in $(basename \"$PWD\")\" >>'{self.root}/log'\n{text}")

    def proofs(self):
        return [call.removeprefix("in ") for call in self.called() if call.startswith("in ")]

    def test_quick_proves_what_was_changed(self):
        self.proved_but()
        ended = self.gate("quick")
        self.assertEqual((ended.returncode, self.proofs()), (0, []), ended.stderr)
        self.proved_but("a", "b")
        ended = self.gate("quick")
        self.assertEqual((ended.returncode, self.proofs()), (0, ["a", "b"]), ended.stderr)
        self.assertEqual([call for call in self.called() if call.startswith("rt ")], ["rt check"] * 2)
        self.assertNotIn("rt check, which", ended.stdout)

    def test_quick_fails_where_a_proof_does(self):
        self.proved_but("a", "b", text="exit 1")
        ended = self.gate("quick")
        self.assertEqual((ended.returncode, self.proofs()), (1, ["a"]))
        self.assertNotIn("all that was run holds", ended.stdout)

    def test_quick_fails_where_a_tool_does(self):
        self.command("bin/python3", '[ "$1" != tools/house.py ]')
        ended = self.gate("quick")
        self.assertNotEqual(ended.returncode, 0)
        self.assertNotIn("holds", ended.stdout)

    def test_quick_is_over_in_its_time(self):
        self.proved_but("a", "b", text="sleep 60")
        ended = self.gate("quick", QUICK_SECONDS="2")
        self.assertEqual(ended.returncode, 0, ended.stderr)
        self.assertRegex(
            ended.stdout,
            r"    env -C crates/a rt check, which did not end in the \d s that were left\n    env -C crates/b rt check: no time was left\n",
        )

    def test_quick_fails_where_a_proof_did_before_it_was_cut(self):
        for said in ("fn b::f: not proved", "src/lib.rt:1:1: error[unknown-name]: no"):
            self.proved_but("b", text=f"echo '{said}'; sleep 60")
            ended = self.gate("quick", QUICK_SECONDS="2")
            self.assertEqual(ended.returncode, 1)
            self.assertIn(said, ended.stdout)
            self.assertNotIn("all that was run holds", ended.stdout)

    def test_quick_runs_the_oracle_where_it_is_built(self):
        self.file("oracle/target/x/release/deps/planner-1")
        self.assertIn("there is no source of the Rust", self.gate("quick").stdout)
        self.command("tools/rust-source")
        self.assertNotIn("the oracle's own tests", self.gate("quick").stdout)
        self.assertIn("cargo test -q --release --lib --bins --tests", self.called())
        self.command("oracle/cargo", "exit 101")
        self.assertEqual(self.gate("quick").returncode, 101)


if __name__ == "__main__":
    unittest.main()
