#!/usr/bin/env python3
"""Checks docs/BELIEVE.md against the definitions: what it lists is there, and nothing that must be believed is missing.

A row of a table in docs/BELIEVE.md lists files or folders of definitions (`crates/NAME/specs`), and how many of their lines say
something to the prover. From the listed files, and from the contracts of the calls for C and Rust and of the program, every `use`
line is followed: a definition that is reached and not listed is a fault, and so is a library of the kit that the page does not
name. A definition that stands in for a listed one is in a table of its own, with the theorem that says so. Beside it, no two
definitions of the house have one name, and none has a name of the kit's `lib.Ieee`.
Prints each fault with its file and line and ends with status 1, or prints one line of counts. With --count it writes the counted
lines into the page instead of comparing them.
"""

import argparse
import re
import subprocess
import sys
from pathlib import Path

from house import KIT, Fault, line_of

PAGE = "docs/BELIEVE.md"
# The contracts that people meet: the calls for C and Rust, and what the programs print.
CALLS = (
    "crates/*_exports/src/*.rt",
    "crates/*_exports_c/src/*.rt",
    "crates/reply/src/*.rt",
    "crates/plan/src/*.rt",
    "crates/hold_year/src/*.rt",
    "crates/holds/src/*.rt",
)

ROW = re.compile(r"^\| (`crates/[^|]*) \| (\d+) \|", re.M)
STANDS_IN = re.compile(r"^\| `(crates/[^`|]*)`[^|]* \| [^|]* \| ((?:(?:, )?`[\w-]+` of `crates/[^`|]*`)+) \|$", re.M)
THEOREM = re.compile(r"`([\w-]+)` of `(crates/[^`]*)`")
QUOTED = re.compile(r"`([^`]+)`")
USE = re.compile(r"^(?:pub )?(?:ghost )?use ([^\s;{]+)", re.M)
OURS = re.compile(r"Rattle\.(\w+)\.(specs|proofs)\.(\w+)")
# What the toolchain makes of the code: its types, and the contracts of its functions.
OF_CODE = ("declared", "contracts")
DEFINED = re.compile(r"^(?:abbrev |unfoldable )?pub (?:data |record )?([^\s:({]+)", re.M)
NOT_DEFINED = ("mod", "use", "ruleset", "record", "data")


def definitions(place):
    """The files of a place: itself, or those of a folder but for the list of its modules."""
    return [place] if place.is_file() else sorted(file for file in place.glob("*.antt") if file.name != "Lib.antt")


def counted(file):
    """How many lines of a file say something to the prover."""
    told = file.read_text(encoding="utf-8").splitlines()
    return sum(1 for line in told if line.strip() and not line.strip().startswith("--") and not line.startswith("use "))


def cited(root, file):
    """What a file cites: the definitions of the house with their lines, and the libraries of the kit."""
    text = file.read_text(encoding="utf-8")
    for match in USE.finditer(text):
        ours = OURS.match(match[1])
        line = line_of(text, match.start())
        if not ours or ours[1] in KIT:
            yield line, match[1].rstrip("."), None
        elif ours[2] == "specs" and ours[3] not in OF_CODE:
            yield line, None, root / f"crates/{ours[1]}/specs/{ours[3]}.antt"
        elif ours[2] == "proofs" and file.parent.name == "specs":
            yield line, None, root / f"crates/{ours[1]}/proofs/{ours[3]}.antt"


class Page:
    """docs/BELIEVE.md, what it lists, and the faults found so far."""

    def __init__(self, root):
        self.root = root
        self.text = (root / PAGE).read_text(encoding="utf-8")
        self.faults = []
        self.lines = 0
        self.listed, self.stand_ins = set(), set()
        self.read_rows()
        self.read_stand_ins()
        self.follow()

    def fault(self, file, line, text):
        self.faults.append(Fault(str(file), line, text))

    def read_rows(self):
        for match in ROW.finditer(self.text):
            places = [self.root / name for name in QUOTED.findall(match[1])]
            line = line_of(self.text, match.start())
            for place in places:
                if not place.exists():
                    self.fault(PAGE, line, f"{place.relative_to(self.root)} is not there")
            files = [file for place in places if place.exists() for file in definitions(place)]
            self.listed.update(files)
            lines = sum(map(counted, files))
            self.lines += lines
            if lines != int(match[2]):
                self.fault(PAGE, line, f"{match[1]} has {lines} lines, and not {match[2]}")
        if not self.listed:
            self.fault(PAGE, 1, "lists no definitions")

    def read_stand_ins(self):
        """Definitions that need not be believed, each with the theorems that it is one that is listed."""
        for match in STANDS_IN.finditer(self.text):
            line = line_of(self.text, match.start())
            self.stand_ins.add(self.root / match[1])
            if not (self.root / match[1]).is_file():
                self.fault(PAGE, line, f"{match[1]} is not there")
            for name, place in THEOREM.findall(match[2]):
                file = self.root / place
                if not file.is_file() or not re.search(rf"^ *pub {re.escape(name)} :", file.read_text(encoding="utf-8"), re.M):
                    self.fault(PAGE, line, f"{place} has no theorem `{name}`")

    def follow(self):
        """Everything that a listed file or the contract of a call cites is on the page. What a stand-in cites need not be."""
        known, missed = self.listed | self.stand_ins, set()
        calls = [file for pattern in CALLS for file in sorted(self.root.glob(pattern))]
        for file in sorted(self.listed | set(calls)):
            name = file.relative_to(self.root)
            for line, library, there in cited(self.root, file):
                what = f"{there.relative_to(self.root)}" if there else f"`{library}` of the kit"
                outside = there not in known if there else file in self.listed and f"`{library}`" not in self.text
                if outside and what not in missed:
                    missed.add(what)
                    self.fault(name, line, f"{what} must be believed, and is not on the page")

    def with_counts(self):
        """The page with each row's lines as counted."""

        def recount(match):
            files = [file for name in QUOTED.findall(match[1]) for file in definitions(self.root / name)]
            return f"| {match[1]} | {sum(map(counted, files))} |"

        return ROW.sub(recount, self.text)


def meanings(root, taken=frozenset()):
    """The faults of names: each of a definition has one meaning in the house, and none is a name of the kit's."""
    first, faults = {}, []
    for file in sorted(root.glob("crates/*/specs/*.antt")):
        text, name = file.read_text(encoding="utf-8"), str(file.relative_to(root))
        for match in DEFINED.finditer(text):
            if match[1] in NOT_DEFINED:
                continue
            line = line_of(text, match.start())
            if match[1] in taken:
                faults.append(Fault(name, line, f"`{match[1]}` is a name of lib.Ieee"))
            if match[1] in first:
                faults.append(Fault(name, line, f"`{match[1]}` has another meaning in {first[match[1]]}"))
            first.setdefault(match[1], name)
    return faults


def names_of_the_kit():
    """What lib.Ieee of the kit defines. The kit's guide stands at the top of the kit."""
    guide = subprocess.run(["rt", "doc"], capture_output=True, text=True, check=True).stdout.strip()
    text = (Path(guide).parent / "rattle/logic/Lib/Ieee.antt").read_text(encoding="utf-8")
    return frozenset(name for name in DEFINED.findall(text) if name not in NOT_DEFINED)


def main(arguments=None):
    parser = argparse.ArgumentParser(description=__doc__.splitlines()[0])
    parser.add_argument("--count", action="store_true", help="write the counted lines into the page")
    parser.add_argument("--root", type=Path, default=Path(__file__).resolve().parent.parent, metavar="DIR")
    asked = parser.parse_args(arguments)
    try:
        page = Page(asked.root)
        if asked.count:
            (asked.root / PAGE).write_text(page.with_counts(), encoding="utf-8")
            page = Page(asked.root)
        faults = sorted(page.faults + meanings(asked.root, names_of_the_kit()))
    except (OSError, subprocess.CalledProcessError) as why:
        sys.exit(f"believe: {why}")
    if faults:
        print(*faults, sep="\n")
        return 1
    print(f"believe: {page.lines} lines of definitions in {len(page.listed)} files, {len(page.stand_ins)} stand-ins, nothing outside")
    return 0


if __name__ == "__main__":
    sys.exit(main())
