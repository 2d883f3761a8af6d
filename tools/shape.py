#!/usr/bin/env python3
"""Holds the sources of the crates to the house's measures: lines of at most 132 columns, functions of fewer than 40 lines with at
most eight parameters. The calls for C, here and in their library, and a function that one of these calls, may have more parameters:
document 01's lists.

Prints each fault with its file and line and ends with status 1, or prints one line of counts.
"""

import argparse
import re
import sys
from pathlib import Path
from typing import NamedTuple

from house import Fault

ROOT = Path(__file__).resolve().parents[1]
COLUMNS, LINES, PARAMETERS = 132, 40, 8
FUNCTION = re.compile(r'^( *)(?:pub(?:\(crate\))? )?(extern "C" )?fn (\w+)\((.*?)\)(?= ->|\s+(?:requires|ensures)\b|\s*\{)', re.M | re.S)
CALL = re.compile(r"\b(\w+)\(")
# What the name of a call for C begins with, also in the library that its export is of.
OF_CALL = "igelbert_"


class Function(NamedTuple):
    """A function of a file: its line, name and parameters, whether it is a call for C, and its body."""

    file: str
    line: int
    name: str
    parameters: list
    exported: bool
    body: str


def functions(file, text):
    """The functions of a source."""
    for found in FUNCTION.finditer(text):
        indent, exported, name, parameters = found.groups()
        opening = re.compile(rf"(?: |\n{indent})\{{(?:\n|(?=\}}))").search(text, found.end())
        begin = opening.end()
        end = text.find(f"\n{indent}}}", begin - 1)
        named = [parameter for parameter in re.split(r",\s*", parameters.strip().rstrip(",")) if parameter]
        yield Function(file, text.count("\n", 0, found.start()) + 1, name, named, bool(exported) or name.startswith(OF_CALL), text[begin : max(begin, end)])


def faults(sources):
    """What is wrong with the sources, by file and text."""
    every = [function for file, text in sources.items() for function in functions(file, text)]
    under = {name for function in every if function.exported for name in CALL.findall(function.body)}
    for file, text in sources.items():
        for number, line in enumerate(text.splitlines(), 1):
            if len(line) > COLUMNS:
                yield Fault(file, number, f"{len(line)} columns; {COLUMNS} is the most")
    for function in every:
        many = len(function.parameters)
        if many > PARAMETERS and not function.exported and function.name not in under:
            yield Fault(function.file, function.line, f"`{function.name}` has {many} parameters; {PARAMETERS} is the most")
        lines = len(function.body.strip("\n").splitlines())
        if lines >= LINES:
            yield Fault(function.file, function.line, f"`{function.name}` has {lines} lines; fewer than {LINES} are allowed")


def main(arguments=None):
    parser = argparse.ArgumentParser(prog="shape", description=__doc__, formatter_class=argparse.RawDescriptionHelpFormatter)
    parser.add_argument("root", nargs="?", type=Path, default=ROOT, help="the repository")
    root = parser.parse_args(arguments).root.resolve()
    files = sorted((root / "crates").glob("*/src/*.rt"))
    if not files:
        parser.error(f"{root} has no sources of crates")
    sources = {file.relative_to(root).as_posix(): file.read_text(encoding="utf-8") for file in files}
    found = sorted(faults(sources))
    for fault in found:
        print(fault)
    if not found:
        count = sum(1 for file, text in sources.items() for _ in functions(file, text))
        print(f"shape: {count} functions in {len(sources)} sources, none too long, too wide or with too many parameters")
    return 1 if found else 0


if __name__ == "__main__":
    sys.exit(main())
