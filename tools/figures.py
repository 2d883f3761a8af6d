#!/usr/bin/env python3
"""Prints how large each crate is, as a table for docs/FIGURES.md.

Lines are those that are neither blank nor a comment alone. `rt` tells no seconds of a crate; those of the whole gate are in what
`./test` prints.
"""

import argparse
import pathlib
import re
import sys

ROOT = pathlib.Path(__file__).parents[1]
# The files of proofs/ that are of one function, in its folder: what its goals are answered by, its loops' invariants, and a walk.
OF_LOOPS = "Invariants.antt"
OF_FUNCTIONS = ("Answers.antt", OF_LOOPS, "Proof.antt")


def lines(files, comment):
    """How many lines of the files say something."""
    texts = (line.strip() for file in files for line in file.read_text().splitlines())
    return sum(1 for line in texts if line and not line.startswith(comment))


def crates(root):
    """The crates of crates.txt, in its order."""
    for line in (root / "crates.txt").read_text().splitlines():
        name = line.split("#")[0].split(":")[0].split()
        if name:
            yield name[0]


def sizes(crate):
    """Lines of code, definitions, laws and proofs of functions, the edits, and the faults in them, each with one `# ` line."""
    proofs = list(crate.glob("proofs/**/*.antt"))
    of_functions = [f for f in proofs if f.name in OF_FUNCTIONS]
    laws = [f for f in proofs if f.name not in OF_FUNCTIONS]
    edits = [f.read_text() for f in crate.glob("must-fail/*.edit")]
    return (
        lines(crate.glob("src/**/*.rt"), "//"),
        lines(crate.glob("specs/**/*.antt"), "--"),
        lines(laws, "--"),
        lines(of_functions, "--"),
        len(edits),
        sum(len(re.findall(r"^# ", edit, re.M)) for edit in edits),
    )


def main():
    argparse.ArgumentParser(description=__doc__, formatter_class=argparse.RawDescriptionHelpFormatter).parse_args()
    try:
        rows = [(name, *sizes(ROOT / "crates" / name)) for name in crates(ROOT)]
    except OSError as why:
        sys.exit(f"figures: {why}")
    print("| Crate | Code | Definitions | Laws | Proofs of functions | Edits | Faults |")
    print("|---|---|---|---|---|---|---|")
    totals = [sum(column) for column in zip(*(row[1:] for row in rows))]
    for name, *counts in [*rows, ("all", *totals)]:
        print(f"| {name} | {' | '.join(map(str, counts))} |")


if __name__ == "__main__":
    main()
