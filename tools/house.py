#!/usr/bin/env python3
"""Draws the house, docs/house.svg, from crates.txt and the sources, and says where a layer leans on one above it.

With --check it writes nothing, and fails where the picture is not what the sources say. With --list it prints every crate and
file, what each says of itself and whom it cites. Prints each fault with its file and line and ends with status 1, or prints one
line of counts.
"""

import argparse
import os
import re
import sys
from pathlib import Path
from typing import NamedTuple

import figures
import house_svg

PAGE = "docs/HOUSE.md"
PICTURE = "docs/house.svg"
CRATES = "crates.txt"

# The kit's libraries, which stand outside the house.
KIT = ("std", "core", "check", "libc", "io", "os", "bytes")
SHOWN_OF_THE_KIT = ("io", "os", "libc")
# The word in crates.txt for a static library, which C links and no crate can depend on.
STATIC = "staticlib"
PRIMITIVE = re.compile(r"(?:[iu](?:8|16|32|64|size)|f32|f64|bool)$")

# A heading of crates.txt, which begins a floor, and a row of the page's table of floors.
HEADING = re.compile(r"## (\w+)$")
FLOOR_ROW = re.compile(r"^\| (\w+) \| (?!What )", re.M)

KINDS = {"src": ("rt", "//"), "specs": ("antt", "--"), "proofs": ("antt", "--")}
OUTSIDE_CODE = {
    "rt": re.compile(r'//.*|b?"(?:\\.|[^"\\\n])*"|b?\'(?:\\.|[^\\\'\n])\''),
    "antt": re.compile(r"(?:^|(?<=\s))--.*", re.M),
}
RATTLE = re.compile(r"(?<![\w.])Rattle\.([^\s;{,()]*)")
# A word to the prover at a function or type of src/, which names laws and definitions as paths of code.
HINT = re.compile(r"#!?\[tactic\([^\]]*\)\]")
USE = re.compile(r"(?:pub )?use ([a-z_]\w*(?:::\w+)*)(?:::\{([\w, ]+)\})?(?: as (\w+))?;")
PATH = re.compile(r"(?<![\w:])[a-z_]\w*(?:::\w+)+")
# A stop inside a name, as `x.1`, or a word set as code ends no sentence.
SENTENCE = re.compile(r"(?:`[^`]*`|[^`])*?(?<!\.)\.(?=\s|$)")
MODULE = re.compile(r"^(?:pub(?:\(crate\))? )?mod ([\w+]+)", re.M)
TYPE = re.compile(r"^(?:pub(?:\(crate\))? )?(?:struct|enum|type) (\w+)\s*(\{.*?^\}|[(=].*?;)", re.M | re.S)
FUNCTION = re.compile(r"\bfn (\w+)\s*\((.*?)(?:\brequires\b|\bensures\b|\{)", re.S)

# An impl of a trait, by hand or derived by a public type, and the methods that a type gets by each trait that it may derive.
OF_TRAIT = re.compile(r"^impl (\w+)(?:<(\w+)>)? for (\w+)[^\n]*\{\n(.*?)^\}", re.M | re.S)
METHOD = re.compile(r"^[ \t]*fn (\w+)", re.M)
DERIVE = re.compile(r"^#\[derive\(([^)]*)\)\]\s*(?:#\[[^\n]*\]\s*)*pub (?:struct|enum) (\w+)", re.M)
DERIVED = {"Clone": (), "Copy": (), "PartialEq": ("eq",), "Eq": (), "PartialOrd": ("partial_cmp",), "Ord": ("cmp",)}


class Fault(NamedTuple):
    file: str
    line: int
    text: str

    def __str__(self):
        return f"{self.file}:{self.line}: {self.text}"


class Listed(NamedTuple):
    """A crate's line of crates.txt: its number, what it names, its floor, -1 where it has none, and whether it is for C alone."""

    line: int
    names: tuple
    floor: int
    is_static: bool = False


class Cited(NamedTuple):
    """What one place cites: a file, asked for as `src`, `specs` or `proofs` of its crate, and an item of the file."""

    line: int
    crate: str
    kind: str
    file: str
    item: str


class Source:
    """A file of a crate: where it is, what it says, and what it cites."""

    def __init__(self, root, crate, kind, path):
        self.crate, self.kind = crate, kind
        self.file = path.relative_to(root).as_posix()
        self.inside = path.relative_to(root / "crates" / crate).as_posix()
        self.text = path.read_text(encoding="utf-8")
        self.code = OUTSIDE_CODE[path.suffix[1:]].sub("", self.text)
        self.cited, self.hinted = [], []
        self.kit = set()
        self.names_of_kit = set()
        self.names = {}

    def opening(self):
        """The first sentence of the comment that opens the file."""
        comment = KINDS[self.kind][1]
        said = []
        for line in self.text.splitlines():
            if not line.startswith(comment):
                break
            said.append(line[len(comment) :].strip())
        text = " ".join(said)
        sentence = SENTENCE.match(text)
        return sentence[0] if sentence else text

    def is_proof_of_function(self):
        return self.kind == "proofs" and Path(self.inside).name in figures.OF_FUNCTIONS

    def is_list(self):
        """Whether the file only declares the others of its folder."""
        return self.kind != "src" and self.inside == f"{self.kind}/Lib.antt"


class Impl(NamedTuple):
    """An impl of a trait: the trait, the toolchain's name of the impl, its place in the text, and each method with its own place."""

    trait: str
    name: str
    start: int
    methods: tuple
    is_derived: bool


def impls_of_traits(code):
    """The impls of traits in a file of src/. The toolchain names one by its type and trait, a conversion by both of its types."""
    for match in OF_TRAIT.finditer(code):
        trait, other, of, body = match.groups()
        methods = tuple((method[1], match.start(4) + method.start(1)) for method in METHOD.finditer(body))
        yield Impl(trait, f"{of[:1].upper()}{of[1:]}{trait}{other or ''}", match.start(), methods, False)
    for match in DERIVE.finditer(code):
        for trait in re.findall(r"\w+", match[1]):
            methods = tuple((method, match.start()) for method in DERIVED.get(trait, ()))
            yield Impl(trait, f"{match[2]}{trait}", match.start(), methods, True)


class House:
    """The crates in their order, their files, and the faults found so far."""

    def __init__(self, root):
        self.root, self.faults = root, []
        self.crates, self.floors = read_crates((root / CRATES).read_text(encoding="utf-8"), self.faults)
        self.place = {crate: number for number, crate in enumerate(self.crates)}
        self.sources = {source.file: source for source in read_sources(root, self.crates)}
        for source in self.sources.values():
            read_rattle(self, source)
            if source.kind == "src":
                read_hints(self, source)
                read_code(self, source)

    def fault(self, file, line, text):
        self.faults.append(Fault(file, line, text))

    def of(self, crate, *kinds):
        """The files of a crate."""
        return [s for s in self.sources.values() if s.crate == crate and (not kinds or s.kind in kinds)]

    def root_file(self, crate):
        """src/lib.rt or src/main.rt."""
        names = (f"crates/{crate}/src/{name}.rt" for name in ("main", "lib"))
        return next((name for name in names if name in self.sources), None)

    def cites(self, crate):
        """The other crates that a crate cites, from low to high."""
        found = {cited.crate for source in self.of(crate) for cited in source.cited + source.hinted} - {crate}
        return sorted(found, key=lambda name: self.place.get(name, -1))


def read_crates(text, faults):
    """The lines of crates.txt, by crate and in their order, and the floors that its headings name."""
    crates, floors = {}, []
    for number, line in enumerate(text.splitlines(), 1):
        heading = HEADING.match(line)
        if heading and heading[1] in floors:
            faults.append(Fault(CRATES, number, f"the floor {heading[1]} has a heading already"))
        elif heading:
            floors.append(heading[1])
        said = line.split("#")[0].strip()
        if not said:
            continue
        head, colon, names = said.partition(":")
        name, *kind = head.split() or [""]
        if not colon or name in crates or kind not in ([], [STATIC]):
            faults.append(Fault(CRATES, number, f"`{said}` is not a crate's one line, NAME: what it stands on"))
            continue
        crates[name] = Listed(number, tuple(names.split()), len(floors) - 1, bool(kind))
    return crates, floors


def read_sources(root, crates):
    """Every file of every crate, sorted."""
    for crate in crates:
        for kind, (suffix, _) in KINDS.items():
            for path in sorted((root / "crates" / crate / kind).glob(f"**/*.{suffix}")):
                yield Source(root, crate, kind, path)


def line_of(code, at):
    """The number of the line at a place in a text."""
    return code.count("\n", 0, at) + 1


def longest_file(house, crate, kind, parts):
    """The file that the longest beginning of the parts names, and the first part behind it."""
    suffix = KINDS[kind][0]
    for count in range(len(parts), 0, -1):
        file = f"crates/{crate}/{kind}/{'/'.join(parts[:count])}.{suffix}"
        if file in house.sources:
            return file, (parts[count] if count < len(parts) else "")
    return None


def code_file(house, crate, parts):
    """The file of src/ that the parts name: a module, or the root for an item of its own."""
    found = longest_file(house, crate, "src", parts)
    root = house.root_file(crate)
    if found or not root or not parts:
        return found
    code = house.sources[root].code
    own = re.search(rf"\b(?:struct|enum|type|fn|const) {re.escape(parts[0])}\b", code)
    return (root, parts[0]) if own or any(impl.name == parts[0] for impl in impls_of_traits(code)) else None


def rattle_file(house, name):
    """Crate, kind, file and item of a name behind `Rattle.`: `A.specs.X`, `A.proofs.Y`, `A.specs.declared.m.T`; a library of the
    kit has none of these.

    What is declared stands for src/, and so does what is made from a function, as `A.specs.contracts.m.f` and
    `A.proofs.m.f.Goals`.
    """
    crate, kind, *rest = [*(part for part in name.split(".") if part), "", ""]
    if crate in KIT:
        return ()
    if kind not in ("specs", "proofs"):
        return None
    rest = [part for part in rest if part]
    if kind == "specs" and rest[:1] in (["declared"], ["contracts"]):
        found = code_file(house, crate, rest[1:])
    elif kind == "specs":
        found = longest_file(house, crate, "specs", rest)
    else:
        found = longest_file(house, crate, "proofs", rest) or code_file(house, crate, rest)
    return found and (crate, kind, *found)


def read_rattle(house, source):
    """What a file cites by names that begin with `Rattle.`."""
    for match in RATTLE.finditer(source.code):
        line = line_of(source.code, match.start())
        found = rattle_file(house, match[1])
        if found:
            source.cited.append(Cited(line, *found))
        elif found is None:
            house.fault(source.file, line, f"cites `{match[0]}`, and no file of the house has it")


def path_file(house, source, parts):
    """Crate, kind, file and item of a path of code, `crate::m::T` or `other::m::f`; a library of the kit has none of these."""
    if parts[0] in KIT:
        source.kit.add(parts[0])
        return ()
    if parts[0] in house.crates:
        crate, rest = parts[0], parts[1:]
    else:
        crate, rest = source.crate, parts[1:] if parts[0] == "crate" else parts
    found = code_file(house, crate, rest)
    return found and (crate, "src", *found)


def read_hints(house, source):
    """What the words to the prover cite, `crate::proofs::M::law`, as a proof would; they are no code."""
    for match in HINT.finditer(source.code):
        line = line_of(source.code, match.start())
        for path in PATH.findall(match[0]):
            crate, kind, *rest = [*path.split("::"), ""]
            found = rattle_file(house, ".".join([source.crate if crate == "crate" else crate, kind, *rest]))
            if found:
                source.hinted.append(Cited(line, *found))
            elif found is None:
                house.fault(source.file, line, f"cites `{path}`, and no file of the house has it")
    source.code = HINT.sub(lambda match: re.sub(r"[^\n]", " ", match[0]), source.code)


def read_code(house, source):
    """What a file of src/ cites by its `use` lines, and by the paths in its code."""
    for number, line in enumerate(source.code.splitlines(), 1):
        use = USE.match(line.strip())
        if use:
            read_use(house, source, number, use)
        elif re.match(r"\s*(?:pub )?use\b", line):
            house.fault(source.file, number, f"`{line.strip()}` is a form of `use` that is not read here")
        else:
            for path in PATH.findall(line):
                read_path(house, source, number, path.split("::"))


def read_use(house, source, line, use):
    """A `use` line: what it cites, and the names that it brings in."""
    path, group, renamed = use.groups()
    for last in group.split(",") if group else [""]:
        parts = path.split("::") + ([last.strip()] if last else [])
        cited = add_path(house, source, line, parts)
        if cited:
            source.names[renamed or parts[-1]] = cited
        elif parts[0] in KIT:
            source.names_of_kit.add(renamed or parts[-1])


def read_path(house, source, line, parts):
    """A path: what a `use` brought in, with an item of it, or a whole path; the kit's, or a number's own, as `f64::MAX`, is none."""
    if parts[0] in source.names:
        source.cited.append(source.names[parts[0]]._replace(line=line, item=parts[1]))
    elif parts[0] not in source.names_of_kit and not PRIMITIVE.match(parts[0]):
        add_path(house, source, line, parts)


def add_path(house, source, line, parts):
    """Puts what a path cites with the rest, and hands it back; a path of the kit's is none."""
    found = path_file(house, source, parts)
    if found is None:
        house.fault(source.file, line, f"cites `{'::'.join(parts)}`, and no file of the house has it")
    elif found:
        source.cited.append(Cited(line, *found))
        return source.cited[-1]
    return None


def parts_of_items(house):
    """(file, item) -> the items that the declaration of a type, or the head of a function, names."""
    parts = {}
    for source in house.sources.values():
        if source.kind != "src":
            continue
        items = TYPE.findall(source.code) + FUNCTION.findall(source.code)
        own = {name for name, _ in items}
        for name, text in items:
            here = parts.setdefault((source.file, name), set())
            for word in re.findall(r"\b[A-Z]\w*", text):
                if word in source.names:
                    here.add((source.names[word].file, word))
                elif word in own:
                    here.add((source.file, word))
    return parts


def reached(house, crate, parts):
    """The crates that declare a type of which a value cited by the crate is made: the prover wants them named too."""
    waiting = [(cited.file, cited.item) for source in house.of(crate) for cited in source.cited + source.hinted]
    seen = set()
    while waiting:
        item = waiting.pop()
        if item not in seen:
            seen.add(item)
            waiting.extend(parts.get(item, ()))
    return {house.sources[file].crate for file, _ in seen}


def check_list(house):
    """Each crate's line: its folder is there, it is on a floor, and what it names stands before it and is used."""
    parts = parts_of_items(house)
    for crate, listed in house.crates.items():
        root_file = house.root_file(crate)
        if not root_file:
            house.fault(CRATES, listed.line, f"{crate} has neither src/lib.rt nor src/main.rt")
        elif not house.sources[root_file].opening():
            house.fault(root_file, 1, f"does not open with a comment that says what {crate} is")
        if listed.floor < 0:
            house.fault(CRATES, listed.line, f"{crate} is on no floor: no heading `## FLOOR` stands above it")
        used = reached(house, crate, parts)
        for name in listed.names:
            if name in KIT:
                continue
            if name not in house.crates:
                house.fault(CRATES, listed.line, f"{crate} names {name}, and there is no such crate")
            elif house.place[name] >= house.place[crate]:
                house.fault(CRATES, listed.line, f"{crate} names {name}, which does not stand below it")
            elif house.crates[name].is_static:
                house.fault(CRATES, listed.line, f"{crate} names {name}, which is for C alone")
            elif name not in used:
                house.fault(CRATES, listed.line, f"{crate} names {name} and cites nothing of it")
    for folder in sorted((house.root / "crates").iterdir()):
        if folder.is_dir() and folder.name not in house.crates:
            house.fault(CRATES, 1, f"crates/{folder.name} has no line")


def check_between(house):
    """Each citation of another crate: it is named, and stands below, so it is on no higher floor."""
    for source in house.sources.values():
        here, named = source.crate, (*house.crates[source.crate].names, source.crate)
        for cited in source.cited + source.hinted:
            there = cited.crate
            if there not in named:
                house.fault(source.file, cited.line, f"cites {there}, which the line of {here} in {CRATES} does not name")
            if house.place[there] > house.place[here]:
                house.fault(source.file, cited.line, f"cites {there}, which stands above {here}")
        for library in sorted(source.kit - {"std", *named}):
            house.fault(source.file, 1, f"cites {library}, which the line of {here} in {CRATES} does not name")


def check_kinds(house):
    """Code and definitions never cite proofs."""
    for source in house.sources.values():
        for cited in source.cited:
            if cited.kind == "proofs" and source.kind != "proofs":
                what = "definitions cite" if source.kind == "specs" else "code cites"
                house.fault(source.file, cited.line, f"{what} no proofs, and this is of the proofs of {cited.crate}")


def check_cycles(house):
    """The files of src/, of specs/ and of proofs/ cite one another without a cycle."""
    for crate in house.crates:
        for kind in KINDS:
            files = {source.file: source for source in house.of(crate, kind)}
            done = set()
            for file in files:
                follow(house, files, file, [], done)


def follow(house, files, file, way, done):
    """Goes down from a file, and says where the way comes back to itself."""
    if file in done:
        return
    for cited in files[file].cited:
        if cited.file in way:
            names = [Path(name).stem for name in [*way[way.index(cited.file) :], file, cited.file]]
            house.fault(file, cited.line, f"cites in a circle: {', '.join(names)}")
        elif cited.file in files and cited.file != file:
            follow(house, files, cited.file, [*way, file], done)
    done.add(file)


def check_declared(house):
    """Every file of specs/ and proofs/ is declared in its Lib.antt, and every module of code by a `mod`."""
    for source in house.sources.values():
        if source.is_list() or source.is_proof_of_function() or source.file == house.root_file(source.crate):
            continue
        if source.kind == "src":
            lists = house.of(source.crate, "src")
        else:
            lists = [s for s in house.of(source.crate, source.kind) if s.is_list()]
        if not any(Path(source.file).stem in MODULE.findall(other.code) for other in lists):
            where = "by no `mod`" if source.kind == "src" else f"in no line of {source.kind}/Lib.antt"
            house.fault(source.file, 1, f"the file is declared {where}")


def check_page(house):
    """The page has a row for each floor, in their order."""
    told = FLOOR_ROW.findall((house.root / PAGE).read_text(encoding="utf-8"))
    if told != house.floors:
        house.fault(PAGE, 1, f"its floors are {', '.join(told) or 'none'}; {CRATES} has {', '.join(house.floors) or 'none'}")


def check(root):
    """The house under root, with all its faults."""
    house = House(root)
    for rule in (check_list, check_between, check_kinds, check_cycles, check_declared, check_page):
        rule(house)
    house.faults = sorted(set(house.faults))
    return house


def arrows(house):
    """Crate -> the crates it cites, without those that another of them leads to."""
    below = {}
    for crate in house.crates:
        cited = house.cites(crate)
        below[crate] = set(cited).union(*(below[name] for name in cited))
    return {
        crate: [name for name in house.cites(crate) if not any(name in below[other] for other in house.cites(crate))]
        for crate in house.crates
    }


def boxes(house):
    """What the picture says of each crate."""
    for crate in house.crates:
        code, definitions, laws, proofs, *_ = figures.sizes(house.root / "crates" / crate)
        kit = sorted({name for name in house.crates[crate].names if name in SHOWN_OF_THE_KIT})
        yield house_svg.Box(
            name=crate,
            floor=house.crates[crate].floor,
            purpose=house.sources[house.root_file(crate)].opening(),
            files=len(house.of(crate)),
            sizes=(code, definitions, laws + proofs),
            kit=tuple(kit),
        )


def cell(text):
    """A sentence as a cell of a table: what is set as code stays as it is."""
    return re.sub(r"`[^`]*`|<", lambda found: found[0] if found[0] != "<" else "&lt;", text).replace("|", "\\|")


def listing(names):
    return ", ".join(f"`{name}`" for name in names)


def rows(house, crate):
    """A row for each file, and one for the proofs of all functions of a module: name, sentence, files and crates cited."""
    proofs = {}
    for source in house.of(crate):
        if source.is_proof_of_function():
            proofs.setdefault(source.inside.split("/")[1], []).append(source)
        elif not source.is_list():
            yield row(house, source.inside, source.opening(), [source])
    for module, sources in proofs.items():
        many = len({name for source in sources for name in proved_by(source)})
        sentence = "1 function of `{}` meets its contract." if many == 1 else f"{many} functions of `{{}}` meet their contracts."
        yield row(house, f"proofs/{module}/", sentence.format(f"src/{module}.rt"), sources)


def proved_by(source):
    """The functions that a proof is of: those that call one another have one together, in `+f+g`."""
    *above, last = Path(source.inside).parent.parts
    return [(*above, name) for name in last.strip("+").split("+")]


def row(house, name, sentence, sources):
    """The row of one file, or of several under one name."""
    crate = sources[0].crate
    cited = [cited for source in sources for cited in source.cited if cited.file != source.file]
    inside = sorted({house.sources[c.file].inside for c in cited if c.crate == crate})
    outside = sorted({c.crate for c in cited if c.crate != crate}, key=house.place.get)
    kit = sorted({name for source in sources for name in source.kit if name in SHOWN_OF_THE_KIT})
    return f"| `{name}` | {cell(sentence)} | {listing(inside)} | {', '.join([*outside, *kit])} |"


LIST_HEAD = """# Every crate and file

From `crates.txt` and the sources. `Lib.antt` is in no table, since it only declares the others. The proofs of a module's functions have one row; a function that the prover sees through by itself has no file there.
"""


def full_list(house):
    """Every crate and file, what each says of itself and whom it cites, by floor."""
    parts = [LIST_HEAD]
    for number, floor in enumerate(house.floors):
        parts.append(f"## Floor {number + 1}: {floor}\n")
        for crate in (crate for crate, listed in house.crates.items() if listed.floor == number):
            above = [other for other in house.crates if crate in house.cites(other)]
            parts.append(f"### {crate}\n")
            parts.append(f"{cell(house.sources[house.root_file(crate)].opening())}\n")
            parts.append(f"Cites {', '.join(house.cites(crate)) or 'no crate'}. Cited by {', '.join(above) or 'no crate'}.\n")
            parts.append("| File | What it says of itself | Cites in the crate | Cites outside |\n|---|---|---|---|")
            parts.append("\n".join(rows(house, crate)) + "\n")
    return "\n".join(parts)


def draw(house):
    """Each file to be written, and what it is to say."""
    return {PICTURE: house_svg.draw(house.floors, list(boxes(house)), arrows(house))}


def counts(house):
    """What is said where nothing is wrong."""
    cited = sum(len(source.cited) for source in house.sources.values())
    drawn = sum(map(len, arrows(house).values()))
    floors, crates = len(house.floors), len(house.crates)
    there = f"{crates} crates on {floors} floors, {len(house.sources)} files, {cited} citations, {drawn} arrows"
    return f"the house stands: {there}, none upward"


def tell(text):
    """Prints a long text; that its reader stops early, as `head` does, is no fault."""
    try:
        print(text, end="", flush=True)
    except BrokenPipeError:
        os.dup2(os.open(os.devnull, os.O_WRONLY), sys.stdout.fileno())


def run(tool, about, check, draw, counts, arguments, full_list=None):
    """The command of a tool that writes pages from the sources, holds them to these with --check, and prints with --list."""
    parser = argparse.ArgumentParser(description=about.splitlines()[0])
    parser.add_argument("--check", action="store_true", help="write nothing, and fail where a page is out of date")
    if full_list:
        parser.add_argument("--list", action="store_true", help="write nothing, and print what is too long for a page")
    parser.add_argument("--root", type=Path, default=Path(__file__).resolve().parent.parent, metavar="DIR")
    asked = parser.parse_args(arguments)
    try:
        found = check(asked.root)
        if found.faults:
            print(*found.faults, sep="\n")
            return 1
        if full_list and asked.list:
            tell(full_list(found))
            return 0
        for name, text in draw(found).items():
            file = asked.root / name
            if not asked.check:
                file.write_text(text, encoding="utf-8")
            elif not file.is_file() or file.read_text(encoding="utf-8") != text:
                print(f"{name}:1: not what the sources say: run tools/{tool}.py")
                return 1
    except OSError as why:
        sys.exit(f"{tool}: {why}")
    print(counts(found))
    return 0


def main(arguments=None):
    return run("house", __doc__, check, draw, counts, arguments, full_list)


if __name__ == "__main__":
    sys.exit(main())
