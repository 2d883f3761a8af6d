#!/usr/bin/env python3
"""Writes, for each public function, the theorem that its contract allows one answer and one final lent memory.

The statement names the function alone: it is of the contract that the toolchain makes of the clauses, and that the function is
proved to meet. No clause is read here, and no parameter: the prover finds what is lent, and proves each theorem by one search.
The theorems depend on every crate with public functions, so the line of `contracts` in crates.txt is written too.
With --check nothing is written, and the tool fails where a theorem is not there or not as it would be written. With --built it
compares the functions with those that the toolchain says are public, once they are proved. With --list it prints each function
with its theorem. Prints each fault with its file and line and ends with status 1, or prints one line of counts.
"""

import json
import re
import sys
from pathlib import Path
from typing import NamedTuple

from house import DERIVED, Fault, House, impls_of_traits, line_of, run

CRATE = "contracts"
FOLDER = f"crates/{CRATE}/proofs"
LIST = f"{FOLDER}/Lib.antt"
WRITTEN = ("Rules",)
# The claim, and what every proof goes by.
CLAIM = "settling"
OWN = "crates/{}/proofs/Public.antt"
CRATES = "crates.txt"
DEPENDS = re.compile(rf"^{CRATE}:.*$", re.M)

PUBLIC = re.compile(r"^[ \t]*pub\s+(?:[a-z]+\s+)*fn\s+(\w+)", re.M)
IMPL = re.compile(r"^impl (\w+)[^\n]*\{\n(.*?)^\}", re.M | re.S)
# The clauses up to the next function are counted. A wrong count costs the proof, and nothing else.
FUNCTION = re.compile(r"\bfn\s")
CLAUSE = re.compile(r"\bensures\b")
BY = {1: "by_clause", 2: "by_clauses"}
# A conversion and a comparison promise by one clause, which stands in the trait.
OF_A_TRAIT = 1
# A word of a type's name, as `Time` and `Point` of `TimePoint`.
INSIDE = re.compile(r"(?<=[a-z0-9])(?=[A-Z])")


class Function(NamedTuple):
    """A public function: its crate, its path there, its place, how many clauses are promised, and whether it is derived."""

    crate: str
    path: tuple
    file: str
    line: int
    clauses: int
    is_derived: bool = False

    @property
    def name(self):
        return "::".join((self.crate, *self.path))

    @property
    def short(self):
        """Its name in the prover."""
        return INSIDE.sub("_", "_".join(self.path)).lower()

    @property
    def theorem(self):
        return f"{self.short}_determined"

    @property
    def contract(self):
        """The contract that the toolchain makes of its clauses."""
        return f"Rattle.{self.crate}.specs.contracts.{'.'.join(self.path)}"

    @property
    def proved(self):
        """What the toolchain makes of its code."""
        return f"Rattle.{self.crate}.proofs.{'.'.join(self.path)}"


class Contracts:
    """The public functions of the house, and the faults found so far."""

    def __init__(self, root):
        self.house = House(root)
        self.faults = []
        self.all = [f for crate in self.house.crates for s in self.house.of(crate, "src") for f in read_source(self, s)]
        self.by_crate = {}
        for function in self.all:
            self.by_crate.setdefault(function.crate, []).append(function)

    def fault(self, file, line, text):
        self.faults.append(Fault(file, line, text))


def read_source(contracts, source):
    """The public functions of a file of src/, and then the methods of the traits that its types have."""
    holders = [(match.start(), match.end(), match[1]) for match in IMPL.finditer(source.code)]
    module = [part for part in Path(source.inside).relative_to("src").with_suffix("").parts if part not in ("lib", "main")]
    for match in PUBLIC.finditer(source.code):
        line = line_of(source.code, match.start(1))
        inside = [name for start, end, name in holders if start < match.start() < end]
        path = (*module, *inside, match[1])
        clauses = len(CLAUSE.findall(FUNCTION.split(source.code[match.end() :], maxsplit=1)[0]))
        function = Function(source.crate, path, source.file, line, clauses)
        if clauses not in BY:
            contracts.fault(source.file, line, f"`{function.name}` promises by {clauses} clauses, and there is no lemma for so many")
        yield function
    for impl in impls_of_traits(source.code):
        if impl.is_derived and impl.trait not in DERIVED:
            line = line_of(source.code, impl.start)
            contracts.fault(source.file, line, f"derives `{impl.trait}`, and it is not known that its contracts settle an answer")
        for method, at in impl.methods:
            path = (*module, impl.name, method)
            yield Function(source.crate, path, source.file, line_of(source.code, at), OF_A_TRAIT, impl.is_derived)


def theorem(function):
    """The theorem of one function, and its proof."""
    name = function.short
    return f"""
pub {function.theorem} :
    Determined {name}_symbol.code {name}_symbol.name {name}.ended (λ M 𝓤. {name}.clauses)
{function.theorem} = record {{
  met = λ M. {name}_met.met;
  kept = refl;
  free = λ M 𝓤 𝓛 mem run κs a. (tt, id⊢ 𝓤 (emp 𝓤));
  one = λ M 𝓤 𝓛 mem run κs a g g' r r' left left' s s'.
      {BY[function.clauses]} 𝓤 {name}.ended κs a r r' left left' (λ p q. (search one_answer, search one_answer)) s s';
}}
"""


def page(crate, functions, own=False):
    """The file with the theorems of one crate."""
    lemmas = ", ".join(sorted({BY[function.clauses] for function in functions}))
    lines = [f"-- Each public function of {crate} has one answer and one lent memory. tools/contracts.py writes this file."]
    lines += ["-- Assumes nothing.", "use mathlib.Core.Path.{refl}", "use base.Logic.{id⊢, emp}"]
    for function in functions:
        name, proved = function.short, function.proved
        lines += [f"use {function.contract} as {name}"]
        lines += [f"use {proved}.Symbol as {name}_symbol", f"use {proved}.Met as {name}_met"]
    where = f"{CLAIM}.proofs.Facts" if own else f"{CRATE}.proofs.Rules"
    lines += [f"use Rattle.{CLAIM}.specs.Determined.{{Determined}}"]
    lines += [f"use Rattle.{CLAIM}.proofs.Facts.{{{lemmas}}}", f"use Rattle.{where}.{{one_answer}}"]
    return "\n".join(lines) + "\n" + "".join(theorem(function) for function in functions)


def pages(contracts):
    """All files, by name."""
    files, listed = {}, []
    for crate, functions in contracts.by_crate.items():
        own = has_its_own(contracts, crate)
        files[place(contracts, crate)] = page(crate, functions, own)
        listed += [] if own else [crate]
    files[LIST] = "".join(f"pub mod {name}\n" for name in (*WRITTEN, *listed))
    crates = (contracts.house.root / CRATES).read_text(encoding="utf-8")
    files[CRATES] = DEPENDS.sub(f"{CRATE}: {' '.join((CLAIM, *listed))}", crates)
    return files


def full_list(contracts):
    """Each public function with its theorem and the file that has it."""
    return "".join(f"{f.name}: {f.theorem} of {place(contracts, f.crate)}\n" for f in contracts.all)


def place(contracts, crate):
    """The file with the theorems of a crate."""
    return OWN.format(crate) if has_its_own(contracts, crate) else f"{FOLDER}/{crate}.antt"


def has_its_own(contracts, crate):
    """Whether the theorems of a crate stand in itself: the samples, and what no other crate can depend on, a program or what C links."""
    house = contracts.house
    return crate == CLAIM or house.crates[crate].is_static or f"crates/{crate}/src/main.rt" in house.sources


def check(root):
    """The public functions of a house, with every fault."""
    contracts = Contracts(root)
    crates = contracts.house.crates
    for crate in contracts.by_crate:
        if crate != CLAIM and has_its_own(contracts, crate) and CLAIM not in crates[crate].names:
            contracts.fault(CRATES, crates[crate].line, f"`{crate}` does not depend on `{CLAIM}`, so it can have no theorems")
    if CRATE not in crates:
        contracts.fault(CRATES, 1, f"`{CRATE}` is not listed, so there are no theorems")
    for file in sorted((root / FOLDER).glob("*.antt")):
        known = file.stem in ("Lib", *WRITTEN) or file.stem in contracts.by_crate and not has_its_own(contracts, file.stem)
        if not known:
            contracts.fault(f"{FOLDER}/{file.name}", 1, "states theorems of no crate with public functions")
    contracts.faults.sort()
    return contracts


def built(root):
    """The same, compared with what the toolchain says is public of each library; what no crate depends on is made into none."""
    contracts = check(root)
    stated = {function.name: function for function in contracts.all}
    public = set()
    libraries = {name for listed in contracts.house.crates.values() for name in listed.names}
    for crate in contracts.house.crates:
        interface = root / f"crates/{crate}/out/rlib/{crate}.rlib/interface/toolchain/mir.json"
        if interface.is_file():
            public.update(name for name, _ in json.loads(interface.read_text(encoding="utf-8")))
        elif crate in libraries:
            contracts.fault(CRATES, 1, f"`{crate}` is not proved, so what is public there is not known")
    for name in sorted(public - stated.keys()):
        contracts.fault(LIST, 1, f"`{name}` is public, and there is no theorem on it")
    for name in sorted(stated.keys() - public):
        if stated[name].crate in libraries:
            contracts.fault(stated[name].file, stated[name].line, f"`{name}` is not among what the toolchain says is public")
    return contracts


def counts(contracts):
    """What is said where nothing is wrong."""
    return f"no second answer: {len(contracts.all)} functions of {len(contracts.by_crate)} crates, a theorem for each"


def main(arguments=None):
    arguments = sys.argv[1:] if arguments is None else arguments
    look = built if "--built" in arguments else check
    asked = ["--check" if argument == "--built" else argument for argument in arguments]
    return run(CRATE, __doc__, look, pages, counts, asked, full_list)


if __name__ == "__main__":
    sys.exit(main())
