#!/usr/bin/env python3
"""Holds docs/RULES.md, docs/COVERAGE.md, docs/DIFFERENCES.md and every citation of a rule against one another.

Prints each fault with its file and line and ends with status 1, or prints one line of counts.
"""

import argparse
import re
import sys
from pathlib import Path
from typing import NamedTuple

from citations import CITED, IDENT, RULES, plain_lines, read_rules
from coverage import COVERAGE, DERIVED_COLUMNS, NAMED, Derived, cells_of, check_rows, read_rows
from house import CRATES, Fault

DIFFERENCES = "docs/DIFFERENCES.md"
ORACLE_TESTS = "oracle/planner/tests/*.rs"
# What tells a newcomer where things are, and the paths in it, some of which stand for many.
GUIDES = ("README.md", "CONTRIBUTING.md", "CHANGELOG.md", "docs/HOUSE.md", "docs/landings/README.md")
GUIDED = re.compile(r"`((?:crates|docs|examples|include|oracle|tests|tools)/[\w./-]+)`|\]\(([\w./-]+)\)")
FOR_MANY = re.compile(r"\b(?:CRATE|FUNCTION|LAYER|MODULE|NAME)\b")
CITING = ("crates/**/*.rt", "crates/**/*.antt", "oracle/**/*.rs", "include/*.h", "*.md", "docs/**/*.md")


class Counts(NamedTuple):
    rules: int
    rows: int
    open_rows: int
    citations: int

    def __str__(self):
        return (
            f"docs agree: {self.rules} rules and demands, {self.rows} of them with a row by hand, "
            f"{self.open_rows} rows with something open, {self.citations} citations"
        )


def open_rows(rows):
    """How many rows have something open, which a name of code does not mean."""
    cells = ([row.cells[column] for column in DERIVED_COLUMNS] for row in rows.values())
    return sum(any(re.search(r"\bopen\b", re.sub(r"`[^`]*`", "", cell)) for cell in row) for row in cells)


def check_paths(text, root, faults):
    """Each path that COVERAGE.md names is there, and each name cited after it occurs in that file."""
    for number, line in enumerate(text.splitlines(), 1):
        for path, names in NAMED.findall(line):
            if not (root / path).is_file():
                faults.append(Fault(COVERAGE, number, f"there is no file {path}"))
                continue
            body = (root / path).read_text(encoding="utf-8", errors="replace")
            for name in re.findall(r"`([^`]+)`", names):
                if not re.search(rf"(?<![\w-]){re.escape(name)}(?![\w-])", body):
                    faults.append(Fault(COVERAGE, number, f"`{name}` does not occur in {path}"))


def check_differences(root, faults):
    """Each test that DIFFERENCES.md names in the last cell of a row is a test of the oracle."""
    tests = {
        name
        for file in root.glob(ORACLE_TESTS)
        for name in re.findall(r"#\[test\]\s*fn (\w+)", file.read_text(encoding="utf-8"))
    }
    for number, line in plain_lines((root / DIFFERENCES).read_text(encoding="utf-8")):
        if not re.match(r"\| \d", line):
            continue
        last = cells_of(line)[-1]
        named = re.findall(r"`([^`]+)`", last)
        if not named:
            faults.append(Fault(DIFFERENCES, number, "the row names nothing that runs it"))
        for name in named:
            if name not in tests and not (root / name).is_file():
                faults.append(Fault(DIFFERENCES, number, f"`{name}` is no test of the oracle, and no file"))


def check_guides(root, faults):
    """Each path that a guide names is there."""
    for name in GUIDES:
        text = (root / name).read_text(encoding="utf-8") if (root / name).is_file() else ""
        for number, line in enumerate(text.splitlines(), 1):
            for path, link in GUIDED.findall(line):
                place = root / path if path else (root / name).parent / link
                if not FOR_MANY.search(path) and not place.exists():
                    faults.append(Fault(name, number, f"there is no {path or link}"))


def check_citations(root, rules, sections, faults):
    """Each citation in code, definitions, oracle, header and papers names a rule or a section that there is."""
    count = 0
    files = sorted({file for pattern in CITING for file in root.glob(pattern)})
    for file in files:
        name = file.relative_to(root)
        if {"target", "out"} & set(name.parts) or not file.is_file():
            continue
        text = file.read_text(encoding="utf-8", errors="replace")
        for cited in CITED.finditer(text):
            line = text.count("\n", 0, cited.start()) + 1
            for group, what, known, shape in ((1, "rule", rules, IDENT), (2, "section", sections, r"\d+")):
                for number in re.findall(shape, cited[group] or ""):
                    count += 1
                    if number not in known:
                        faults.append(Fault(name.as_posix(), line, f"cites {what} {number}, and there is none"))
    return count


def check(root):
    """The faults of the tree under root, and its counts."""
    faults = []
    missing = [name for name in (RULES, COVERAGE, DIFFERENCES, CRATES) if not (root / name).is_file()]
    if missing:
        return [Fault(name, 1, "the file is missing") for name in missing], Counts(0, 0, 0, 0)
    coverage = (root / COVERAGE).read_text(encoding="utf-8")
    rules, sections = read_rules((root / RULES).read_text(encoding="utf-8"), faults)
    rows = read_rows(coverage, rules, faults)
    check_rows(rules, rows, Derived(root, rules, rows), faults)
    check_paths(coverage, root, faults)
    check_differences(root, faults)
    check_guides(root, faults)
    citations = check_citations(root, rules, sections, faults)
    return sorted(faults), Counts(len(rules), len(rows), open_rows(rows), citations)


def main(arguments=None):
    parser = argparse.ArgumentParser(description=__doc__.splitlines()[0])
    parser.add_argument("--root", type=Path, default=Path(__file__).resolve().parent.parent, metavar="DIR")
    faults, counts = check(parser.parse_args(arguments).root)
    for fault in faults:
        print(fault)
    if faults:
        return 1
    print(counts)
    return 0


if __name__ == "__main__":
    sys.exit(main())
