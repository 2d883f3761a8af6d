#!/usr/bin/env python3
"""Holds every fault of the must-fail edits to its refusal, by what the prover says of the edited crate.

`rt ci` and `rt must-fail` tell that an edit is refused, and by which error first. This tool tries each edit once more, as they do,
and reads all that the prover says: the facts that it refuses must be those that the edit's faults name, and no others. What only
rests on a refused fact does not count, and a proof that no longer fits the code is no refusal: an edit keeps the shape of the code.
Where a fact is not reached since another fault of the edit stands in its way, its fault is tried by itself. What was said of an
edit is kept in target/refusals, for as long as nothing changes that it stands on.

Prints each fault that is not refused so, with its file and line, and ends with status 1, or prints one line of counts. With
--form it asks only whether the edits are well formed and every public function has a fault, which needs no check. With --said LOG
it holds the first error of each edit, as `rt ci` printed it, to the facts that the edit's faults name. With --apart DIR it writes
the crates to DIR, with an edit for each fault, so that `rt must-fail` there tries each by itself.
"""

import argparse
import hashlib
import os
import re
import shutil
import subprocess
import sys
import tempfile
from concurrent.futures import ThreadPoolExecutor
from pathlib import Path

import kit
from contracts import Contracts
from coverage import FUNCTION, items_of
from faults import Fact, read_all
from figures import OF_FUNCTIONS
from house import Fault as Found
from house import impls_of_traits, line_of

ROOT = Path(__file__).resolve().parents[1]
KEPT = "target/refusals"
ERROR = re.compile(r"(?:\./)?((?:src|specs|proofs)/[^:\s]+):\d+:\d+: error: (?:`([^`]*)`: )?(.*)")
# A goal that was left to the prover's own search, at a place of the code.
UNPROVED = re.compile(r"note: (?:\./)?(src/[^:\s]+):(\d+):\d+: it is not proved that .*\(`([^`]+)`\)")
# A function that has no proof file.
NO_PROOF = re.compile(r"fn \w+::(\S+): no proof: .*`search` did not prove ([^;]*)")
RESTS_ON_ANOTHER = re.compile(r"was not admitted|which was (?:rejected|not admitted)")
UNFIT = re.compile(r"\bhas no (?:field )?`|\bis not in scope")
# What `rt ci` and `rt must-fail` say of an edit.
SAID = re.compile(r"^rt: must-fail (\w+)/(\S+\.edit): (.*)$", re.M)
FIRST = "refused, as it must be: "

# Public functions without a fault of their own, each with the reason.
TWINS = "an instant's and a span's are the same line, which an edit cannot tell apart; the faults are those of `{}`, all that it calls"
ELSEWHERE = {
    f"times::time::{kind}::{name}": TWINS.format(called)
    for kind in ("TimePoint", "Duration")
    for name, called in (("is_exact", "is_exact"), ("as_secs_f64", "seconds_of"))
}


def proof_name(path):
    """A file of a crate as a fault names it: the proof of a function by the function's path, any other as it is."""
    parts = Path(path).parts
    if parts[0] == "proofs" and parts[-1] in OF_FUNCTIONS:
        return "::".join(parts[1:-1])
    return path


def impl_named(text, item):
    """How the toolchain names the impl that a function stands in: a type of the project, or a trait's impl by its own name."""
    of_traits = {line_of(text, at): impl.name for impl in impls_of_traits(text) for _, at in impl.methods}
    return of_traits.get(item.line, item.within)


def function_at(crate, path, line):
    """The function of a crate's source that stands at a line, which may be one of an attribute above it, by its path."""
    module = [part for part in Path(path).relative_to("src").with_suffix("").parts if part not in ("lib", "main")]
    text = (crate / path).read_text(encoding="utf-8")
    functions = [item for item in items_of(path, text, "rt") if FUNCTION.match(item.text)]
    if text.splitlines()[line - 1].lstrip().startswith("#"):
        here = next((item for item in functions if item.line > line), None)
    else:
        here = next((item for item in reversed(functions) if item.line <= line), None)
    return "::".join(filter(None, [*module, *([impl_named(text, here), here.place.name] if here else [])]))


def proof_of(crate, function, goal):
    """The proof in which a goal of a function is. Functions that call one another have one together, `+NAME`, and its goals begin
    with the function's name."""
    *module, name = function.split("::")
    if goal.startswith(f"{name}-"):
        for folder in sorted(crate.joinpath("proofs", *module).glob("+*")):
            if any(f"{name}-" in file.read_text(encoding="utf-8") for file in folder.glob("*.antt")):
                return "::".join([*module, folder.name])
    return function


def refusal(crate, line):
    """The fact that a line of a check refuses, if it does, and whether its proof only does not fit the code."""
    error, unproved = ERROR.match(line), UNPROVED.match(line)
    if error and not RESTS_ON_ANOTHER.search(error[3]):
        return Fact(proof_name(error[1]), error[2] or "a line"), bool(UNFIT.search(error[3]))
    if unproved:
        return Fact(proof_of(crate, function_at(crate, unproved[1], int(unproved[2])), unproved[3]), unproved[3]), False
    return None, False


def refusals(crate, log):
    """The facts that are refused, by what a check of the crate in a folder said, and those whose proof does not fit the code."""
    refused, unfit = set(), set()
    for line in log.splitlines():
        fact, fits_not = refusal(crate, line)
        if fact:
            (unfit if fits_not else refused).add(fact)
        no_proof = NO_PROOF.match(line)
        if no_proof:
            refused.update(Fact(no_proof[1], name) for name in re.findall(r"`([^`]+)`", no_proof[2]))
    return refused - unfit, unfit


def of_proof(facts, proof):
    """Those facts that stand in one proof."""
    return {fact for fact in facts if fact.proof == proof}


def is_refused(fact, refused, unfit, named):
    """Whether a fact that a fault names is refused. A goal is named by the tests that lead to it, so a fault that changes one gives
    the goal another name: the old one has no place in the code then, and the new one, which nobody named, is refused."""
    return fact in refused or fact in unfit and bool(of_proof(refused - named, fact.proof))


def unrefused(faults, refused, unfit):
    """The faults with a fact that is not refused, each with that fact."""
    named = {fact for fault in faults for fact in fault.refused}
    return [(fault, fact) for fault in faults for fact in fault.refused if not is_refused(fact, refused, unfit, named)]


def held(edit, faults, refused, unfit):
    """What is wrong with an edit's refusals."""
    named = {fact for fault in faults for fact in fault.refused}
    for fault, fact in unrefused(faults, refused, unfit):
        yield Found(fault.file, fault.line, f"`{fault.label}` is not refused at {fact}")
    for fact in sorted(unfit):
        if not of_proof(refused, fact.proof):
            yield Found(edit, 1, f"a fault changes the shape of the code: {fact} does not fit it")
    for fact in sorted(refused - named):
        if not of_proof(unfit & named, fact.proof):
            yield Found(edit, 1, f"{fact} is refused, and no fault names it")


def uncovered(root, edits):
    """The public functions for which there is no fault, and no reason why not."""
    refused = {(fault.crate, *fact) for faults in edits.values() for fault in faults for fact in fault.refused}
    named = {f"{crate}::{proof}" for crate, proof, _ in refused}
    # what is derived has no text that a fault could change
    public = [contract for contract in Contracts(root).all if not contract.is_derived]
    # a fault may leave the code right and the contract open: what is refused is then that there is no second answer
    named |= {contract.name for contract in public if (contract.crate, "proofs/Public.antt", contract.theorem) in refused}
    for contract in public:
        if contract.name not in named | ELSEWHERE.keys():
            yield Found(contract.file, contract.line, f"there is no fault for `{contract.name}`, which is public")
        if contract.name in named & ELSEWHERE.keys():
            yield Found(contract.file, contract.line, f"there is a fault for `{contract.name}`, and a reason why there is none")


class Checks:
    """The checks of edited crates, each over what a check of the crate as it stands has proved."""

    def __init__(self, root):
        self.root, self.rt = root, kit.load("rt")
        self.rt.rtlib.guarded()
        self.crates, self.stamps = {}, {}

    def begin(self, crate):
        """Proves a crate as it stands."""
        folder = self.root / "crates" / crate
        ended = subprocess.run(["rt", "check"], cwd=folder, capture_output=True, text=True, check=False)
        if ended.returncode:
            raise OSError(f"{crate} is not proved as it stands:\n{ended.stdout}{ended.stderr}")
        self.crates[crate] = self.rt.rtlib.Crate(str(folder), str(self.root), {})
        self.stamps[crate] = self.crates[crate].stamp()

    def said(self, crate, label, lines):
        """What a check says of a crate with these lines of an edit."""
        text = "\n".join(lines)
        key = hashlib.sha256(f"{self.stamps[crate]}\n{text}".encode()).hexdigest()
        kept = self.root / KEPT / crate / f"{label}.log"
        if kept.is_file() and kept.read_text(encoding="utf-8").startswith(f"{key}\n"):
            return kept.read_text(encoding="utf-8")
        texts, why = self.rt.edited(text, self.crates[crate].folder)
        if why:
            raise OSError(f"{crate}/{label}: {why}")
        with tempfile.TemporaryDirectory(prefix="refusals-") as room:
            seed = f"{room}/seed"
            self.rt.linked(f"{self.crates[crate].folder}/out/incremental", seed)
            ran = self.rt.checked(self.crates[crate], texts, ["--jobs", "1"], seed)
        if ran.returncode != 1 or not ran.stdout.rstrip().rpartition("\n")[2].startswith("logic=not-proved"):
            raise OSError(f"{crate}/{label}: is not refused, its check ended with status {ran.returncode}:\n{ran.stdout[-900:]}")
        kept.parent.mkdir(parents=True, exist_ok=True)
        kept.write_text(f"{key}\n{ran.stdout}", encoding="utf-8")
        return ran.stdout


def tried(checks, root, path, faults):
    """What is wrong with the refusals of one edit. A fault whose facts are not all reached is tried by itself."""
    edit, folder, crate = path.relative_to(root).as_posix(), path.parents[1], path.parents[1].name
    try:
        refused, unfit = refusals(folder, checks.said(crate, path.stem, [line for fault in faults for line in fault.lines]))
        alone = [fault for fault in faults if fault in (found for found, _ in unrefused(faults, refused, unfit))]
        if len(faults) == 1 or not alone:
            return list(held(edit, faults, refused, unfit))
        others = [fault for fault in faults if fault not in alone]
        theirs = {fact.proof for fault in others for fact in fault.refused}
        apart = {fact.proof for fault in alone for fact in fault.refused} - theirs
        found = list(held(edit, others, *({fact for fact in facts if fact.proof not in apart} for facts in (refused, unfit))))
        for fault in alone:
            own = refusals(folder, checks.said(crate, f"{path.stem}.{fault.label}", fault.lines))
            found.extend(held(edit, [fault], *own))
        return found
    except OSError as why:
        return [Found(edit, 1, str(why))]


def check(root, edits, at_once):
    """What is wrong with the refusals of all edits."""
    checks = Checks(root)
    for crate in sorted({path.parents[1].name for path in edits}):
        checks.begin(crate)
    with ThreadPoolExecutor(at_once) as pool:
        for found in pool.map(lambda edit: tried(checks, root, *edit), edits.items()):
            yield from found


def first_errors(root, edits, log):
    """Where `rt ci` does not say of an edit that it is refused, or says it first of a fact that none of the edit's faults names."""
    said = {f"{crate}/{name}": told for crate, name, told in SAID.findall(log)}
    for path, faults in edits.items():
        edit, crate = path.relative_to(root).as_posix(), path.parents[1]
        told = said.get(f"{crate.name}/{path.name}")
        if not told or not told.startswith(FIRST):
            yield Found(edit, 1, f"is not refused at a fact: {told or 'nothing is said of it'}")
            continue
        fact, fits_not = refusal(crate, told.removeprefix(FIRST))
        named = {named for fault in faults for named in fault.refused}
        if fact not in named and not (fact and of_proof(named, fact.proof) and not is_written(crate, fact)):
            yield Found(edit, 1, f"{fact or told} is refused first, and no fault names it")
        elif fits_not:
            yield Found(edit, 1, f"a fault changes the shape of the code: {fact} does not fit it")


def is_written(crate, fact):
    """Whether the proof of a function speaks of a goal, which then has that name in the code as it stands."""
    files = (crate / "proofs" / fact.proof.replace("::", "/") / name for name in OF_FUNCTIONS)
    return any(fact.name in file.read_text(encoding="utf-8").split() for file in files if file.is_file())


def write_apart(root, edits, folder):
    """The crates in `folder`, with an edit for each fault."""
    shutil.copytree(root / "crates", folder / "crates", ignore=shutil.ignore_patterns("must-fail"))
    shutil.copy(root / "crates.txt", folder)
    for fault in (fault for faults in edits.values() for fault in faults):
        edit = folder / "crates" / fault.crate / "must-fail" / f"{fault.label}.edit"
        edit.parent.mkdir(exist_ok=True)
        facts = {}
        for fact in fault.refused:
            facts.setdefault(fact.proof, []).append(fact.name)
        where = (f"refused: {proof} at {', '.join(names)}" for proof, names in facts.items())
        edit.write_text("\n".join([f"# {fault.label}: {fault.why}", *where, *fault.lines, ""]), encoding="utf-8")


def main(arguments=None):
    parser = argparse.ArgumentParser(prog="refusals", description=__doc__, formatter_class=argparse.RawDescriptionHelpFormatter)
    parser.add_argument("root", nargs="?", type=Path, default=ROOT, help="the repository, or a folder that --apart wrote")
    parser.add_argument("--form", action="store_true", help="ask only what needs no check")
    parser.add_argument("--said", type=Path, metavar="LOG", help="hold what `rt ci` printed to the faults")
    parser.add_argument("--apart", type=Path, metavar="DIR", help="write the crates to DIR, with an edit for each fault")
    parser.add_argument("--crate", action="append", metavar="NAME", help="only this crate's edits, and those of others so named")
    parser.add_argument("--jobs", type=int, default=os.cpu_count() or 1, help="so many checks at once, as many as processors")
    given = parser.parse_args(arguments)
    if given.apart and given.apart.exists():
        parser.error(f"{given.apart} is there already")
    root = given.root.resolve()
    edits, found = read_all(root)
    found.extend(uncovered(root, edits))
    if given.crate:
        edits = {path: faults for path, faults in edits.items() if path.parents[1].name in given.crate}
    try:
        if not found and given.apart:
            write_apart(root, edits, given.apart)
        elif not found and given.said:
            found.extend(first_errors(root, edits, given.said.read_text(encoding="utf-8", errors="replace")))
        elif not found and not given.form:
            found.extend(check(root, edits, given.jobs))
    except OSError as why:
        sys.exit(f"refusals: {why}")
    for fault in sorted(found):
        print(fault)
    if not found:
        faults = sum(map(len, edits.values()))
        refused = "" if given.form or given.apart else ", each refused at the facts that it names and no other"
        refused = ", each edit refused first at a fact that a fault names" if given.said else refused
        print(f"refusals: {faults} faults in {len(edits)} edits{refused}")
    return 1 if found else 0


if __name__ == "__main__":
    sys.exit(main())
