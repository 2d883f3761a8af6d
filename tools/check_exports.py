#!/usr/bin/env python3
"""Holds the three places that declare the calls for C and Rust to one another, each to the proved function that it calls, and the
header's version to CHANGELOG.md.

A library and what C links are two crates: `crates/NAME_exports` has the functions, and `crates/NAME_exports_c`, a static library,
an export for each, of the same name, parameters and clauses, that calls it. With --write this tool writes the second from the
first. include/igelbert.h and the Rust declarations in oracle/compare/src/proved.rs must name the same functions with the same
parameters. No compiler sees more than one of them, and a call by a wrong declaration would go wrong in silence. The version in
the header is the newest released one of CHANGELOG.md.
"""

import argparse
import pathlib
import re
import shutil
import subprocess
import sys

# A Rattle type, and what stands for it in C and in Rust: a slice is a pointer and a length.
NUMBERS = {
    "i64": ("int64_t", "i64"),
    "u64": ("uint64_t", "u64"),
    "f64": ("double", "f64"),
    "usize": ("size_t", "usize"),
    "u8": ("uint8_t", "u8"),
}


HEADER = "include/igelbert.h"
CHANGELOG = "CHANGELOG.md"
REFUSALS = "crates/refusals/src/lib.rt"
VERSION_PARTS = ("MAJOR", "MINOR", "PATCH")


class Bad(Exception):
    """A declaration that this tool does not understand."""


def parameters(text):
    return [p.strip() for p in re.sub(r"\s+", " ", text).split(",") if p.strip()]


def lowered(name, kind):
    """The C and the Rust parameters of one Rattle parameter."""
    if kind in NUMBERS:
        c, rust = NUMBERS[kind]
        return [(f"{c} {name}", f"{name}: {rust}")]
    lent = re.fullmatch(r"&(mut )?\[(\w+)\]", kind)
    if not lent or lent[2] not in NUMBERS:
        raise Bad(f"the type {kind} of {name}")
    c, rust = NUMBERS[lent[2]]
    const, pointer = ("", "*mut") if lent[1] else ("const ", "*const")
    return [
        (f"{const}{c} *{name}", f"{name}: {pointer} {rust}"),
        (f"size_t {name}_len", f"{name}_len: usize"),
    ]


def from_rattle(text):
    """The functions of a Rattle source: name -> (C prototype, Rust declaration)."""
    found = {}
    pattern = r'#\[unsafe\(no_mangle\)\]\npub extern "C" fn (\w+)\s*\(([^)]*)\)\s*->\s*(\w+)'
    for name, inside, result in re.findall(pattern, text):
        pairs = [p.split(": ", 1) for p in parameters(inside)]
        lowered_all = [low for n, kind in pairs for low in lowered(n, kind)]
        c, rust = NUMBERS[result]
        found[name] = (
            f"{c} {name}({', '.join(low[0] for low in lowered_all)})",
            f"fn {name}({', '.join(low[1] for low in lowered_all)}) -> {rust}",
        )
    return found


# A function of a library that is exported: what is said of it, its name, its parameters, its answer and its clauses.
EXPORTED = re.compile(r"^((?://.*\n)*)(?:#\[.*\n)*pub fn (igelbert_\w+)\(([^)]*)\) -> (\w+)\n((?: +.*\n)+)\{\n", re.M)
GHOST_USE = re.compile(r"^ghost use (\S+?)(?:\.\{([^}]*)\})?;\n", re.M)
OPENING = re.compile(r"(?://.*\n)+")


def is_in(name, clauses):
    """Whether clauses cite a name, which may be an operator's, as `◌∷◌`."""
    if "◌" in name:
        return all(part in clauses for part in name.split("◌"))
    return name in clauses if not name[0].isalpha() else bool(re.search(rf"(?<![\w.]){re.escape(name)}(?!\w)", clauses))


def imports(text, clauses):
    """The lines by which a file brings in what these clauses cite."""
    for path, group in GHOST_USE.findall(text):
        names = [name for name in re.split(r",\s*", group.strip()) if name and is_in(name, clauses)]
        if names:
            yield f"ghost use {path}.{{{', '.join(names)}}};\n"
        elif not group and is_in(path.rpartition(".")[2], clauses):
            yield f"ghost use {path};\n"


def thin_module(library, module, text):
    """The exports of a library's module, or nothing where it has none."""
    found = EXPORTED.findall(text)
    if not found:
        return ""
    opening = OPENING.match(text)
    parts = [opening[0] if opening else "", *imports(text, "".join(clauses for *_, clauses in found))]
    for told, name, inside, result, clauses in found:
        names = ", ".join(p.split(": ", 1)[0] for p in parameters(inside))
        head = f'#[unsafe(no_mangle)]\npub extern "C" fn {name}({inside}) -> {result}\n{clauses}'
        parts.append(f"\n{told}{head}{{\n    {library}::{module}::{name}({names})\n}}\n")
    return "".join(parts)


def thin_files(root):
    """What each file of the static libraries is to say."""
    for folder in sorted(root.glob("crates/*_exports")):
        modules = {}
        for file in sorted(folder.glob("src/**/*.rt")):
            module = "::".join(file.relative_to(folder / "src").with_suffix("").parts)
            modules[module] = thin_module(folder.name, module, file.read_text(encoding="utf-8"))
        modules = {name: text for name, text in modules.items() if text}
        to = root / "crates" / f"{folder.name}_c" / "src"
        listed = "".join(f"pub mod {name};\n" for name in modules)
        yield to / "lib.rt", f"// The calls of `{folder.name}` as a static library, for C and Rust.\n#![tactic(auto)]\n\n{listed}"
        for name, text in modules.items():
            yield to / f"{name.replace('::', '/')}.rt", text


def words(text):
    """A text without its layout, which `rt fmt` decides."""
    return re.sub(r",(?=[)}])", "", re.sub(r"\s+", "", text))


def thin_complaints(root):
    """Where a static library is not what its library says."""
    wanted = dict(thin_files(root))
    for file, text in wanted.items():
        if not file.is_file() or words(file.read_text(encoding="utf-8")) != words(text):
            yield f"{file.relative_to(root)}: is not what its library says: run tools/check_exports.py --write"
    for file in sorted(root.glob("crates/*_exports_c/src/**/*.rt")):
        if file not in wanted:
            yield f"{file.relative_to(root)}: is of no module with exports"


def write_thin(root):
    """Writes the static libraries, in the layout of `rt fmt`."""
    files = []
    for file, text in thin_files(root):
        file.parent.mkdir(parents=True, exist_ok=True)
        if not file.is_file() or words(file.read_text(encoding="utf-8")) != words(text):
            file.write_text(text, encoding="utf-8")
            files.append(file)
    rt = shutil.which("rt")
    for folder in sorted({file.parents[1] for file in files}):
        subprocess.run([rt, "fmt"], cwd=folder, check=True, stdout=subprocess.DEVNULL)


def from_header(text):
    text = re.sub(r"/\*.*?\*/", "", text, flags=re.S)
    found = {}
    for result, name, inside in re.findall(r"(\w+) (igelbert_\w+)\s*\(([^)]*)\);", text):
        found[name] = f"{result} {name}({', '.join(parameters(inside))})"
    return found


def from_rust(text):
    found = {}
    block = re.search(r'extern "C" \{(.*?)\n\}', text, re.S)
    for name, inside, result in re.findall(
        r"fn (igelbert_\w+)\s*\(([^)]*)\)\s*->\s*(\w+);", block[1] if block else ""
    ):
        found[name] = f"fn {name}({', '.join(parameters(inside))}) -> {result}"
    return found


def complaints(rattle, header, rust):
    """What is not the same in the three places."""
    for place, declared, index in ((HEADER, header, 0), ("proved.rs", rust, 1)):
        for name in sorted(rattle.keys() | declared.keys()):
            want, have = rattle.get(name, (None, None))[index], declared.get(name)
            if want is None:
                yield f"{place}: {name} is no function of crates/*_exports_c"
            elif have is None:
                yield f"{place}: {name} is missing: {want}"
            elif have != want:
                yield f"{place}: {have}\n    should be: {want}"
    for name in sorted(rattle):
        if not name.startswith("igelbert_"):
            yield f"crates/*_exports_c: {name} does not begin with igelbert_"


def refusal_complaints(header, constants):
    """Where the refusals of the header are not those of the crate `refusals`."""
    declared = re.findall(r"^    IGELBERT_(\w+) = (\d+),?$", header, re.M)
    named = re.findall(r"^pub const (\w+): u64 = (\d+);$", constants, re.M)
    if not named:
        yield f"{REFUSALS}: names no refusal"
    if declared != named:
        yield f"{HEADER}: the refusals are not those of {REFUSALS}"


def version_in_header(text):
    """The version by its three numbers, and by its string; none where one is missing."""
    numbers = [re.search(rf"^#define IGELBERT_VERSION_{part} (\d+)$", text, re.M) for part in VERSION_PARTS]
    string = re.search(r'^#define IGELBERT_VERSION "([^"]*)"$', text, re.M)
    return ".".join(number[1] for number in numbers) if all(numbers) else None, string and string[1]


def version_complaints(header, changelog):
    """Where the header's version is not the newest released one of the changelog."""
    numbers, string = version_in_header(header)
    headings = re.findall(r"^## (\S+)", changelog, re.M)
    if headings[:1] != ["Unreleased"]:
        yield f"{CHANGELOG}: its first heading is not `## Unreleased`"
    released = next((heading for heading in headings if re.fullmatch(r"\d+\.\d+\.\d+", heading)), None)
    if numbers is None:
        yield f"{HEADER}: IGELBERT_VERSION_MAJOR, _MINOR and _PATCH are not all numbers"
    elif numbers != string:
        yield f"{HEADER}: IGELBERT_VERSION is {string}, and its parts are {numbers}"
    if numbers is not None and numbers != released:
        yield f"{HEADER}: the version is {numbers}, and {CHANGELOG} has released {released}"


def main():
    parser = argparse.ArgumentParser(description=__doc__)
    parser.add_argument("--root", type=pathlib.Path, default=pathlib.Path(__file__).parents[1])
    parser.add_argument("--write", action="store_true", help="write the static libraries from their libraries first")
    asked = parser.parse_args()
    root, rattle = asked.root, {}
    try:
        if asked.write:
            write_thin(root)
        for file in sorted(root.glob("crates/*_exports_c/src/**/*.rt")):
            rattle |= from_rattle(file.read_text())
        declared = (root / HEADER).read_text()
        changelog = (root / CHANGELOG).read_text()
        constants = (root / REFUSALS).read_text()
        header = from_header(declared)
        rust = from_rust((root / "oracle/compare/src/proved.rs").read_text())
    except (Bad, OSError, subprocess.CalledProcessError) as why:
        sys.exit(f"check_exports: {why}")
    found = [*thin_complaints(root), *complaints(rattle, header, rust), *version_complaints(declared, changelog), *refusal_complaints(declared, constants)]
    if not rattle:
        found.append("no crate of crates/*_exports_c has an exported function")
    if found:
        sys.exit("\n".join(f"check_exports: {line}" for line in found))
    print(f"exports agree: {len(rattle)} functions in three places, each as its library has it, version {version_in_header(declared)[1]}")


if __name__ == "__main__":
    main()
