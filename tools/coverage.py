#!/usr/bin/env python3
"""Prints for each rule of docs/RULES.md what covers it: tools/coverage.py [RULE ...], all rules where none is named.

Most of it is derived. A definition, a type or a law covers a rule that the comment above it cites, and a file that its opening
comment cites. A function covers it where its own comment cites it, or its contract names such a definition, or, where no contract
does, the nearest definition that rests on it. A comparison or a fixed list runs it where it asks a call whose contract rests on
such a definition; a fault of an edit belongs to it where it breaks such a function. What is not derived has a row in
docs/COVERAGE.md; the definitions that a row names count like those that cite the rule. tools/check_docs.py holds the rows to
this, and --shorten takes out of them what is derived by now.
"""

import argparse
import itertools
import re
import sys
from pathlib import Path
from typing import NamedTuple

from citations import RULES, cited_in, plain_lines, read_rules
from faults import read_all
from house import Fault, House, rattle_file, tell

COVERAGE = "docs/COVERAGE.md"
COLUMNS = ("Rule", "What", "Defined", "Proved", "Run")
DERIVED_COLUMNS = COLUMNS[2:]
# What a cell says to which nothing is to be added by hand.
AS_CITED = "as cited"

# A backticked path, and the backticked names right after it: `crates/a/b.rt` `f`, `g` and `h`
NAMED = re.compile(r"`([^`\s]*/[^`\s]*\.\w+)`((?:\s+`[^`/\s]+`(?:(?:,|,? and)\s+`[^`/\s]+`)*)?)")
# Words of a cell that say nothing beside the paths and names that they join.
JOINING = re.compile(r"^ours:|\breplayed\b|\band\b|[,\s]")
# What each comparison is called in a row: the function that a layer has.
COMPARE = "compare"
# A heading and the head of a table, with no row below.
EMPTY_TABLE = re.compile(r"\n## [^\n]*\n\n\| Rule \|[^\n]*\n\|---[^\n]*\n(?=\n|$)")

PROVED_CALLS = "oracle/compare/src/proved.rs"
LAYERS = "oracle/compare/src/layers/*.rs"
ORACLE = "oracle/**/*.rs"
# The fixed lists, and the calls of which each is the answers: those that `replay` names, and the one for the text of a plan.
TIMES, PLANS = "tests/answers/times.list", "tests/answers/plans.list"
REPLAY, PLAN_CALL = "replay", "igelbert_plan"

COMMENT = re.compile(r"\s*(?:--|//[/!]?)(?: |$)")
DECLARED = {
    "antt": re.compile(
        r"( *)(?:(?:unfoldable|abbrev|pub|data|record) )*(?!module |use |in )([^\s:(){}]+)(?: (?:\(.*\)|\{.*\}))? :(?: |$)"
    ),
    "rt": re.compile(r'( *)(?:pub(?:\(crate\))? )?(?:extern "C" )?(?:fn|struct|enum|type|const) (\w+)'),
    "rs": re.compile(r"( *)(?:pub(?:\(crate\))? )?(?:fn|struct|enum|type|const|mod|trait) (\w+)"),
}
FUNCTION = re.compile(r'( *)(?:pub(?:\(crate\))? )?(?:extern "C" )?fn (\w+)')
PUBLIC = re.compile(r" *(?:\w+ )*pub ")
IMPL = re.compile(r"impl (\w+)")
# The clauses of a function, up to the line on which its body begins.
CONTRACT = re.compile(r"^\s+(?:ensures|requires)\b.*?(?=^\s*\{\}?$)", re.M | re.S)
NAMES = re.compile(r"\buse Rattle\.([^\s;{]+)\.\{([^}]*)\}")
ALIAS = re.compile(r"\buse Rattle\.([^\s;{]+) as (\w+)")
TOKEN = re.compile(r"[^\s(){};,⌜⌝]+")


class Place(NamedTuple):
    """A name that a file declares, or the file itself, by what its opening comment says."""

    file: str
    name: str


class Item(NamedTuple):
    """What a file declares: its place and line, the comment above it, its text, and the type whose `impl` it stands in."""

    place: Place
    line: int
    comment: str
    text: str
    within: str


class Row(NamedTuple):
    """A row by hand: its line, and its cells by column."""

    line: int
    cells: dict


class Covered:
    """What covers one rule: the definitions that cite it, those that its row names, and what is derived from both."""

    def __init__(self):
        self.definitions, self.named = set(), set()
        self.functions, self.laws, self.faults, self.runs = set(), set(), set(), set()

    def of(self, column):
        """The derived places that stand under a column of the table."""
        return {"Defined": self.definitions, "Proved": self.functions | self.laws, "Run": self.runs}[column]

    def has(self, column, path, name):
        """Whether a path, and a name in it, is derived under a column."""
        places = self.of(column)
        if not name or name == COMPARE and column == "Run":
            return any(place.file == path for place in places)
        return Place(path, name) in places


def items_of(file, text, suffix):
    """What a file declares, in order; the first is the file itself, with the comment that opens it.

    A comment is of what is declared below it at its own depth, down to the next comment or an empty line.
    """
    lines = text.splitlines()
    opening = list(itertools.takewhile(COMMENT.match, lines))
    starts, comment, depth, within = [], "", 0, ""
    for number, line in enumerate(lines[len(opening) :], len(opening)):
        if COMMENT.match(line):
            follows = number and COMMENT.match(lines[number - 1])
            comment, depth = f"{comment}\n{line}" if follows else line, len(line) - len(line.lstrip())
            continue
        comment = comment if line.strip() else ""
        impl = IMPL.match(line)
        within = impl[1] if impl else within
        found = DECLARED[suffix].match(line)
        if found:
            above = comment if len(found[1]) == depth else ""
            starts.append((number, len(found[1]), found[2], above, within if found[1] else ""))
    yield Item(Place(file, ""), 1, "\n".join(opening), "", "")
    for at, (number, own, name, above, impl) in enumerate(starts):
        end = next((other for other, deep, *_ in starts[at + 1 :] if deep <= own), len(lines))
        yield Item(Place(file, name), number + 1, above, "\n".join(lines[number:end]), impl)


def names_of(house, source):
    """Name -> place, of the names that a source brings in from the house; `M.` stands for all of a module M."""
    names = {}
    for path, alias in ALIAS.findall(source.code):
        found = rattle_file(house, path)
        if found:
            names[f"{alias}."] = Place(found[2], "")
    for path, group in NAMES.findall(source.code):
        found = rattle_file(house, path)
        if found:
            names.update((name.strip(), Place(found[2], name.strip())) for name in group.split(","))
    return names


def named_in(text, names):
    """The places of the house that a text names."""
    found = set()
    for token in TOKEN.findall(text):
        module, dot, plain = token.rpartition(".")
        if token in names:
            found.add(names[token])
        elif dot and f"{module}." in names:
            found.add(names[f"{module}."]._replace(name=plain))
    return found


class Derived:
    """What the citations of a house, and the rows by hand, say of each rule."""

    def __init__(self, root, rules, rows):
        self.root, self.rules = root, rules
        self.house = House(root)
        self.covered = {rule: Covered() for rule in rules}
        # definition -> the definitions that it names; function -> those that its contract names; (crate, path) -> function
        self.uses, self.contracts, self.proof_of = {}, {}, {}
        for source in self.house.sources.values():
            self.read(source)
        for rule, row in rows.items():
            self.covered[rule].named = {place for place in places_in(row.cells["Defined"]) if place in self.uses}
        self.read_functions()
        self.read_runs()
        self.read_faults()

    def cite(self, kind, item):
        """Puts an item with what covers the rules that its comment cites."""
        for rule in cited_in(item.comment, self.rules):
            getattr(self.covered[rule], kind).add(item.place)

    def read(self, source):
        """The definitions, types, functions and laws of a file, and what each names."""
        items = list(items_of(source.file, source.text, Path(source.file).suffix[1:]))
        names = names_of(self.house, source)
        names_and_own = {item.place.name: item.place for item in items if item.place.name} | names
        for item in items:
            if source.kind == "specs":
                self.uses.setdefault(item.place, set()).update(named_in(item.text, names_and_own) - {item.place})
                self.cite("definitions", item)
            elif source.kind == "src":
                self.read_code(source, item, names)
            elif not source.is_proof_of_function() and (not item.place.name or PUBLIC.match(item.text)):
                self.cite("laws", item)

    def read_code(self, source, item, names):
        """A function with its contract, or a type."""
        if item.place.name and not FUNCTION.match(item.text):
            self.cite("definitions", item)
            return
        self.cite("functions", item)
        if item.place.name:
            contract = "\n".join(CONTRACT.findall(item.text))
            self.contracts.setdefault(item.place, set()).update(named_in(contract, names))
            module = () if source.file == self.house.root_file(source.crate) else (Path(source.file).stem,)
            path = "::".join(filter(None, (*module, item.within, item.place.name)))
            self.proof_of.setdefault((source.crate, path), item.place)

    def read_functions(self):
        """The functions whose contract names a definition of the rule, or the nearest one that rests on it."""
        by, above = {}, {}
        for function, named in self.contracts.items():
            for place in named:
                by.setdefault(place, set()).add(function)
        for place, named in self.uses.items():
            for other in named:
                above.setdefault(other, set()).add(place)
        for covered in self.covered.values():
            for place in covered.definitions | covered.named:
                covered.functions |= nearest(place, by, above)

    def rests_on(self, named):
        """All definitions that some definitions rest on, themselves among them."""
        seen, waiting = set(), list(named)
        while waiting:
            place = waiting.pop()
            if place not in seen:
                seen.add(place)
                waiting.extend(self.uses.get(place, ()))
        return seen

    def read_runs(self):
        """What runs a rule: the comparisons and lists of a call that rests on it, and the oracle's files that cite it."""
        asked = self.askers()
        for function, named in self.contracts.items():
            reached = self.rests_on(named) if function.name in asked else set()
            for covered in self.covered.values():
                if reached & (covered.definitions | covered.named):
                    covered.runs |= asked[function.name]
        for file in sorted(self.root.glob(ORACLE)):
            name = file.relative_to(self.root)
            if "target" in name.parts:
                continue
            for item in items_of(name.as_posix(), file.read_text(encoding="utf-8"), "rs"):
                self.cite("runs", item if FUNCTION.match(item.text) else item._replace(place=Place(name.as_posix(), "")))

    def askers(self):
        """Exported call -> the comparisons that ask it, and the fixed lists of its answers."""
        declared = self.root / PROVED_CALLS
        wrappers = {}
        for item in items_of(PROVED_CALLS, declared.read_text(encoding="utf-8"), "rs") if declared.is_file() else ():
            for call in re.findall(r"\bigelbert_\w+", item.text):
                wrappers.setdefault(call, set()).add(item.place.name)
        layers = {file.relative_to(self.root).as_posix(): file.read_text(encoding="utf-8") for file in self.root.glob(LAYERS)}
        replayed = {word for source in self.house.of(REPLAY, "src") for word in re.findall(r"\w+", source.code)}
        asked = {}
        for call, names in wrappers.items():
            files = {file for file, text in layers.items() if names & set(re.findall(r"\bproved::(\w+)", text))}
            files |= {TIMES} if call in replayed else set()
            files |= {PLANS} if call == PLAN_CALL else set()
            asked[call] = {Place(file, "") for file in files}
        return asked

    def read_faults(self):
        """The faults of edits that break a function of the rule."""
        edits, _ = read_all(self.root)
        for fault in (fault for faults in edits.values() for fault in faults):
            broken = {self.proof_of.get((fault.crate, fact.proof)) for fact in fault.refused}
            for covered in self.covered.values():
                if broken & covered.functions:
                    covered.faults.add(Place(fault.file, fault.label))


def nearest(place, by, above):
    """The functions whose contract names a definition, or, where none does, one that rests on it in as few steps as possible."""
    seen, level = {place}, {place}
    while level:
        found = set().union(*(by.get(one, set()) for one in level))
        if found:
            return found
        level = set().union(*(above.get(one, set()) for one in level)) - seen
        seen |= level
    return set()


def cells_of(line):
    inner = line.strip()[1:]
    if inner.endswith("|"):
        inner = inner[:-1]
    return [cell.strip() for cell in inner.split("|")]


def places_in(cell):
    """The paths that a cell names, each with a name after it, or with none."""
    for path, names in NAMED.findall(cell):
        for name in re.findall(r"`([^`]+)`", names) or [""]:
            yield Place(path, name)


def read_rows(text, rules, faults):
    """The rows by hand, by rule."""
    rows = {}
    for number, line in plain_lines(text):
        cells = cells_of(line) if line.startswith("|") else [COLUMNS[0]]
        if cells[0] == COLUMNS[0] or all(re.fullmatch(r":?-+:?", cell) for cell in cells):
            continue
        rule = cells[0]
        for column, cell in zip(COLUMNS, cells):
            if not cell:
                faults.append(Fault(COVERAGE, number, f"the row `{rule}` has nothing under {column}; say `{AS_CITED}` or `open`"))
        if len(cells) != len(COLUMNS):
            faults.append(Fault(COVERAGE, number, f"the row `{rule}` has {len(cells)} cells, not {len(COLUMNS)}"))
        elif rule not in rules:
            faults.append(Fault(COVERAGE, number, f"the row `{rule}` names no rule"))
        elif rule in rows:
            faults.append(Fault(COVERAGE, number, f"rule {rule} has a row already, on line {rows[rule].line}"))
        else:
            rows[rule] = Row(number, dict(zip(COLUMNS, cells)))
    return rows


def pieces_of(cell):
    """The parts of a cell between its semicolons."""
    return [piece.strip() for piece in cell.split(";")]


def is_bare(piece):
    """Whether a part of a cell has paths and names alone."""
    return not JOINING.sub("", NAMED.sub("", piece))


def is_repeated(piece, covered, column):
    """Whether a part of a cell only names what is derived under its column."""
    places = list(places_in(piece))
    return bool(places) and is_bare(piece) and all(covered.has(column, *place) for place in places)


def wrong_with(rule, row, column, covered):
    """What is wrong with one column of a row by hand."""
    cell = row.cells[column]
    if cell == AS_CITED and not covered.of(column):
        yield f"the row `{rule}` says `{AS_CITED}` under {column}, and nothing is cited there"
    for piece in pieces_of(cell):
        if is_repeated(piece, covered, column):
            yield f"the row `{rule}` repeats what is derived: {piece}"


def check_rows(rules, rows, derived, faults):
    """Each rule is covered under each column, by citations or by a row, and no row repeats a citation."""
    for rule, covered in derived.covered.items():
        row = rows.get(rule)
        for column in DERIVED_COLUMNS:
            if row:
                faults.extend(Fault(COVERAGE, row.line, text) for text in wrong_with(rule, row, column, covered))
            elif not covered.of(column):
                text = f"no citation of rule {rule} is under {column}, and {COVERAGE} has no row for it"
                faults.append(Fault(RULES, rules[rule], text))
        if row and all(row.cells[column] == AS_CITED for column in DERIVED_COLUMNS):
            faults.append(Fault(COVERAGE, row.line, f"the row `{rule}` says nothing"))


def shortened_cell(cell, covered, column):
    """A cell without the names that are derived; what is said beside names stays."""
    left = []
    for piece in pieces_of(cell):
        derived = [place for place in places_in(piece) if covered.has(column, *place)]
        if not derived or not is_bare(piece):
            left.append(piece)
            continue
        files = {}
        for place in places_in(piece):
            if place not in derived:
                files.setdefault(place.file, []).extend([f"`{place.name}`"] if place.name else [])
        if files:
            names = ", ".join(f"`{file}` {', '.join(names)}".strip() for file, names in files.items())
            left.append(f"{names} replayed" if "replayed" in piece else names)
    return "; ".join(left) or AS_CITED


def shortened(text, rows, derived):
    """The page without what is derived, without rows that then say nothing, and without tables that then have no row."""
    lines, of_line = [], {row.line: rule for rule, row in rows.items()}
    for number, line in enumerate(text.splitlines(), 1):
        if number in of_line:
            rule = of_line[number]
            row, covered = rows[rule], derived.covered[rule]
            cells = [shortened_cell(row.cells[column], covered, column) for column in DERIVED_COLUMNS]
            if all(cell == AS_CITED for cell in cells):
                continue
            line = f"| {rule} | {row.cells['What']} | {' | '.join(cells)} |"
        lines.append(line)
    return EMPTY_TABLE.sub("", "\n".join(lines) + "\n")


def listing(places):
    """Places by file, each with its names."""
    files = {}
    for place in sorted(places):
        files.setdefault(place.file, []).extend([place.name] if place.name else [])
    return "; ".join(f"{file} {', '.join(names)}".strip() for file, names in files.items())


def title_of(line):
    """What a rule is called, by its line of RULES.md."""
    bold = re.match(r"\*\*\S+ (.*?)\.?\*\*", line)
    return bold[1] if bold else cells_of(line)[1]


def told(rule, line, covered, row):
    """All that covers a rule, as lines."""
    yield f"## {rule} {title_of(line)}"
    kinds = {
        "Defined": covered.definitions,
        "Proved": covered.functions,
        "Laws": covered.laws,
        "Faults": covered.faults,
        "Run": covered.runs,
    }
    yield from (f"{kind}: {listing(places)}" for kind, places in kinds.items() if places)
    for column in DERIVED_COLUMNS if row else ():
        if row.cells[column] != AS_CITED:
            yield f"{column}, by hand: {row.cells[column]}"
    yield ""


def is_asked(rule, names):
    """Whether a rule is among those named, by itself or by its section; all are where none is named."""
    return not names or rule in names or rule.split(".")[0] in names


def main(arguments=None):
    parser = argparse.ArgumentParser(prog="coverage", description=__doc__, formatter_class=argparse.RawDescriptionHelpFormatter)
    parser.add_argument("rules", nargs="*", metavar="RULE", help="a rule as 4.7, a demand as D3a, or a section as 4")
    parser.add_argument("--shorten", action="store_true", help=f"take out of {COVERAGE} what is derived by now")
    parser.add_argument("--root", type=Path, default=Path(__file__).resolve().parent.parent, metavar="DIR")
    given = parser.parse_args(arguments)
    if given.shorten and given.rules:
        parser.error("--shorten is asked alone")
    faults = []
    try:
        text = (given.root / RULES).read_text(encoding="utf-8")
        page = (given.root / COVERAGE).read_text(encoding="utf-8")
        rules, _ = read_rules(text, faults)
        rows = read_rows(page, rules, faults)
        derived = Derived(given.root, rules, rows)
    except OSError as why:
        sys.exit(f"coverage: {why}")
    for name in given.rules:
        if not any(is_asked(rule, [name]) for rule in rules):
            sys.exit(f"coverage: {RULES} has no rule {name}")
    if faults:
        sys.exit("\n".join(map(str, faults)))
    if given.shorten:
        (given.root / COVERAGE).write_text(shortened(page, rows, derived), encoding="utf-8")
        return 0
    lines = text.splitlines()
    asked = (rule for rule in rules if is_asked(rule, given.rules))
    tell("\n".join(line for rule in asked for line in told(rule, lines[rules[rule] - 1], derived.covered[rule], rows.get(rule))))
    return 0


if __name__ == "__main__":
    sys.exit(main())
